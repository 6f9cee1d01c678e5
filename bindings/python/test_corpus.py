"""Runs of `python -m mbe corpus` with a program that stands for `expandm`, and with the program
EXPANDM if this variable is set. A line for each check that fails, and `N passed, M failed`."""
import hashlib
import io
import json
import os
import shutil
import signal
import subprocess
import sys
import tempfile
import time
from dataclasses import replace

from mbe import __main__ as command
from mbe import corpus, pools
from mbe.package_runs import Job, Limits

HERE = os.path.dirname(os.path.abspath(__file__))
passed = failed = 0


def check(found, wanted):
    global passed, failed
    if found == wanted:
        passed += 1
    else:
        failed += 1
        print(f"failed: {found!r} for {wanted!r}")


def write(path, text):
    os.makedirs(os.path.dirname(path), exist_ok=True)
    with open(path, "w", encoding="utf-8") as it:
        it.write(text)


def sha256(text):
    return hashlib.sha256(text.encode()).hexdigest()


class Room:
    """A folder with packages, a program, its log, and results."""

    def __init__(self, folder, packages):
        self.folder, self.dir, self.out = folder, f"{folder}/dir", f"{folder}/out"
        self.log = f"{folder}/log"
        os.makedirs(self.log)
        os.environ["FAKE_LOG"] = self.log
        self.program = f"{folder}/expandm"
        with open(f"{HERE}/tests/fake_expandm.py", encoding="utf-8") as it:
            write(self.program, f"#!{sys.executable}\n{it.read()}")
        os.chmod(self.program, 0o755)
        os.makedirs(self.dir)
        for name, told in packages.items():
            self.add(name, told)
        self.template = Job("", "", self.program, (), Limits(60, 2048, 2))

    def add(self, name, told):
        write(f"{self.dir}/{name}/Cargo.toml", "[package]\n")
        write(f"{self.dir}/{name}/lib.rs", "")
        write(f"{self.dir}/{name}/fake.json", json.dumps(told))

    def run(self, pool=pools.serial, out=None, **changes):
        """Runs all packages. Returns the results by package, and those without."""
        run = {"run": os.urandom(8).hex(), **changes}
        limits = replace(self.template.limits, **{it: run.pop(it) for it in ("seconds", "megabytes",
                         "retries") if it in run})
        template = replace(self.template, limits=limits, **run)
        records, without = corpus.run(self.dir, out or self.out, pool, template)
        self.records = {it.package: it for it in records}
        return {it.package: it.result for it in records}, without

    def runs(self):
        """What ran since the last call, by package."""
        found = {}
        for name in sorted(os.listdir(self.log)):
            with open(f"{self.log}/{name}", encoding="utf-8") as it:
                found[name] = it.read().split()
            os.remove(f"{self.log}/{name}")
        return found

    def has_run(self, package, kind):
        path = f"{self.log}/{package}"
        if not os.path.exists(path):
            return False
        with open(path, encoding="utf-8") as it:
            return kind in it.read().split()

    def lines(self, out=None):
        with open(f"{out or self.out}/results.jsonl", encoding="utf-8") as it:
            return it.read()


#: The tests, each with the packages of its room.
TESTS = []


def room(packages):
    """A test in a room with these packages. Workers import this file, so it runs no test then."""
    def add(test):
        TESTS.append((test, packages))
        return test
    return add


def outcomes(result):
    return [(name, result["runs"][name]["outcome"]) for name in corpus.RUNS if name in result["runs"]]


ALL = ["plan", "lint", "expand"]
DONE = [(it, "done") for it in ALL]
SAID = [["error", "no rules expected `a`"], ["note", "when"], ["warning", "unused `b`"]]


@room({"a": {"lint": {"reports": SAID, "status": 1}, "expand": {"files": {"lib.rs": "one"}}},
       "b": {"plan": {"reports": [["error", "no file"], ["", "a text"]], "status": 2}},
       "c": {}})
def results(it):
    """The results of each package, by hand, and the summary."""
    found, without = it.run()
    check((sorted(found), without), (["a", "b", "c"], {}))
    lint, expand = found["a"]["runs"]["lint"], found["a"]["runs"]["expand"]
    check((lint["outcome"], lint["status"], lint["errors"], lint["warnings"]), ("done", 1, 1, 1))
    check(lint["diagnostics"], [{"level": level, "message": text} for level, text in SAID])
    check((expand["status"], expand["files"]), (0, {"lib.rs": sha256("one")}))
    check(outcomes(found["b"]), [("plan", "refused")])
    check(found["b"]["runs"]["plan"]["diagnostics"],
          [{"level": "error", "message": "no file"}, {"level": "text", "message": "a text"}])
    check((outcomes(found["c"]), found["c"]["crates"], found["b"]["crates"]), (DONE, 1, 1))
    check([json.loads(line) for line in it.lines().split("\n")[:-1]], [found[p] for p in "abc"])
    with open(f"{it.out}/summary.txt", encoding="utf-8") as summary:
        check(summary.read(), """\
run     done  refused  time  memory  signal  errors  warnings
plan       2        1     0       0       0       1         0
lint       2        0     0       0       0       1         1
expand     2        0     0       0       0       0         0

message                        packages  times
error: no file                        1      1
error: no rules expected `..`         1      1
warning: unused `..`                  1      1
""")


@room({"a": {"plan": {"plan": ["a 2021 lib.rs", "d 2021 ../../d/src/lib.rs std,x"]}}, "b": {}})
def same_input(it):
    """What is in OUT for the same input isn't run again: only its plan is made anew."""
    write(f"{it.folder}/d/Cargo.toml", "[package]\n")
    write(f"{it.folder}/d/src/lib.rs", "")
    first = it.run()
    check(it.runs(), {"a": ALL, "b": ALL})
    lines = it.lines()
    check((it.run(), it.runs(), it.lines()), (first, {"a": ["plan"], "b": ["plan"]}, lines))

    def change(path, text):
        write(path, text)
        it.run()
        return [name for name, runs in it.runs().items() if runs == ALL]
    check(change(f"{it.dir}/b/lib.rs", "fn f() {}"), ["b"])
    check(change(f"{it.dir}/b/new.rs", ""), ["b"])
    check(change(f"{it.dir}/b/target/x", "what Cargo built is no input"), [])
    check(change(f"{it.folder}/d/src/lib.rs", "a dependency changes"), ["a"])
    check(change(f"{it.dir}/.cargo/config.toml", "settings"), ["a", "b"])
    check(change(f"{it.out}/packages/b.json", "{"), ["b"])
    with open(it.program, "a", encoding="utf-8") as program:
        program.write("# another program\n")
    check(change(f"{it.folder}/nothing", ""), ["a", "b"])
    for options, again in ((("--test",), ["a", "b"]), (("--test",), [])):
        it.run(options=options)
        check([name for name, runs in it.runs().items() if runs == ALL], again)


@room({"a": {"lint": {"seconds": 600}}, "b": {}})
def time_is_bounded(it):
    begun = time.monotonic()
    found, _ = it.run(seconds=5, retries=0)
    check(time.monotonic() - begun < 60, True)
    check(outcomes(found["a"]), [("plan", "done"), ("lint", "time"), ("expand", "time")])
    check((outcomes(found["b"]), it.runs()["a"]), (DONE, ["plan", "lint"]))
    it.run(seconds=5, retries=0)
    check(it.runs(), {"a": ["plan"], "b": ["plan"]})
    it.run(seconds=6, retries=0)  # another limit: again
    check(it.runs(), {"a": ["plan", "lint"], "b": ["plan"]})


@room({"a": {"expand": {"megabytes": 1024}}, "b": {}})
def memory_is_bounded(it):
    found, _ = it.run(megabytes=512)
    check(outcomes(found["a"]), [("plan", "done"), ("lint", "done"), ("expand", "memory")])
    check((outcomes(found["b"]), it.runs()), (DONE, {"a": ALL, "b": ALL}))
    found, _ = it.run(megabytes=4096)  # another limit: again
    check((outcomes(found["a"]), it.runs()), (DONE, {"a": ALL, "b": ["plan"]}))


@room({"a": {"lint": {"kills": "self", "times": 1}}, "b": {"lint": {"kills": "self"}}})
def retries(it):
    found, _ = it.run()
    check((outcomes(found["a"]), it.records["a"].attempts), (DONE, 2))
    check(outcomes(found["b"]), [("plan", "done"), ("lint", "signal"), ("expand", "done")])
    check((found["b"]["runs"]["lint"]["status"], it.records["b"].attempts), (-signal.SIGKILL, 3))
    check(it.runs(), {"a": ALL * 2, "b": ALL * 3})


@room({"a": {}})
def no_result(it):
    """A package whose program can't be started has no result, and runs again the next time."""
    found, without = it.run(program=f"{it.folder}/nothing", retries=0)
    check((found, list(without), it.lines()), ({}, ["a"], ""))
    found, without = it.run()
    check((outcomes(found["a"]), without), (DONE, {}))


WORKERS = {f"p{n}": {"lint": {"kills": "worker", "times": 1}} if n in (1, 4) else {
    "lint": {"reports": [["error", f"number {n}"]], "status": 1}} for n in range(8)}


@room(WORKERS)
def dead_workers(it):
    """Workers that die lose nothing: the results are those of a serial run without deaths."""
    found, without = it.run(pools.local(3))
    check((sorted(found), without), (sorted(WORKERS), {}))
    by_pool = it.lines()
    it.run(out=f"{it.folder}/serial")  # by the log, each package has killed its worker before
    check(it.lines(f"{it.folder}/serial"), by_pool)


@room({"a": {"plan": {"kills": "worker"}}, **{f"b{n}": {} for n in range(5)}})
def a_deadly_package(it):
    """A package that kills each worker has no result. All others have theirs."""
    found, without = it.run(pools.local(2))
    check((sorted(found), without), ([f"b{n}" for n in range(5)], {"a": "its worker died 3 times"}))


def children(pid):
    with open(f"/proc/{pid}/task/{pid}/children", encoding="utf-8") as it:
        return [int(word) for word in it.read().split()]


def is_alive(pid):
    try:
        with open(f"/proc/{pid}/stat", encoding="utf-8") as it:
            return it.read().rsplit(")", 1)[1].split()[0] != "Z"
    except OSError:
        return False


def until(holds):
    """Waits up to a minute until something holds, and returns whether it does."""
    end = time.monotonic() + 60
    while not holds() and time.monotonic() < end:
        time.sleep(0.05)
    return holds()


@room({"a": {}, "b": {"lint": {"seconds": 600}}})
def killed(it):
    """A run that is killed has written its results, and leaves no workers. The next one goes on."""
    words = [sys.executable, "-m", "mbe", "corpus", it.dir, "--out", it.out, "--expandm",
             it.program, "--workers", "2", "--timeout", "900"]
    begun = subprocess.Popen(words, cwd=HERE, stderr=subprocess.DEVNULL)
    check(until(lambda: os.path.exists(f"{it.out}/packages/a.json")), True)
    check(until(lambda: it.has_run("b", "lint")), True)
    workers = children(begun.pid)
    begun.kill()
    begun.wait()
    check(until(lambda: not any(map(is_alive, workers))), True)
    it.runs()
    it.add("b", {})
    found, _ = it.run()
    check((outcomes(found["b"]), it.runs()), (DONE, {"a": ["plan"], "b": ALL}))


@room({"a": {}, "b": {"plan": {"status": 2}}})
def the_command(it):
    """The statuses of the command, its table, and its progress."""
    def said(*words):
        out, err = io.StringIO(), io.StringIO()
        kept, sys.stdout, sys.stderr = (sys.stdout, sys.stderr), out, err
        try:
            status = command.main(["corpus", *words])
        finally:
            sys.stdout, sys.stderr = kept
        return status, out.getvalue(), err.getvalue()
    words = [it.dir, "--out", it.out, "--expandm", it.program, "--workers", "1"]
    status, out, err = said(*words)
    check((status, err), (1, "2 of 2 packages\n"))
    check(out.splitlines()[1], "plan       1        1     0       0       0       0         0")
    shutil.rmtree(f"{it.dir}/b")
    check(said(*words), (0, """\
run     done  refused  time  memory  signal  errors  warnings
plan       1        0     0       0       0       0         0
lint       1        0     0       0       0       0         0
expand     1        0     0       0       0       0         0
""", "1 of 1 packages, 1 unchanged\n"))
    it.runs()
    check((said(*words, "--quiet", "--", "--all-features")[2], it.runs()), ("", {"a": ALL}))
    check(said(it.log, "--out", it.out)[0], 2)
    check(said(it.dir, "--out", it.out, "--expandm", f"{it.folder}/nothing")[0], 2)


@room({})
def the_program(it):
    """Packages with macros, and what `expandm` makes of them, by hand."""
    if not os.environ.get("EXPANDM"):
        return
    manifest = '[package]\nname = "%s"\nversion = "0.1.0"\nedition = "2021"\n'
    rules = "#[macro_export]\nmacro_rules! one { () => { 1 }; }\n"
    write(f"{it.dir}/a/Cargo.toml", manifest % "a" + '[dependencies]\nb = { path = "../b" }\n')
    write(f"{it.dir}/a/src/lib.rs", "const ONE: u8 = b::one!();\nmod m;\n")
    write(f"{it.dir}/a/src/m.rs", "const TWO: u8 = b::one!(2);\n")
    write(f"{it.dir}/b/Cargo.toml", manifest % "b")
    write(f"{it.dir}/b/src/lib.rs", rules + "macro_rules! two { ($x:exp) => {}; }\n")
    write(f"{it.dir}/c/Cargo.toml", "[package\n")
    found, without = it.run(program=os.environ["EXPANDM"])
    check((without, outcomes(found["a"]), outcomes(found["c"])), ({}, DONE, [("plan", "refused")]))
    check(found["a"]["runs"]["expand"]["files"], {
        "src/lib.rs": sha256("const ONE: u8 = 1;\nmod m;\n"),
        "src/m.rs": sha256("const TWO: u8 = b::one!(2);\n")})
    errors = [found["a"]["runs"]["expand"], found["a"]["runs"]["lint"], found["b"]["runs"]["lint"]]
    check([it["errors"] for it in errors], [1, 0, 1])
    check([found[it]["crates"] for it in "abc"], [2, 1, 0])
    lines = it.lines()
    it.run(pools.local(2), out=f"{it.folder}/again", program=os.environ["EXPANDM"])
    check(it.lines(f"{it.folder}/again"), lines)


def main():
    for test, packages in TESTS:
        with tempfile.TemporaryDirectory(prefix="mbe-test-") as folder:
            test(Room(folder, packages))
    print(f"{passed} passed, {failed} failed")
    return failed != 0


if __name__ == "__main__":
    sys.exit(main())
