"""Stands for `expandm` in tests. A package says in its file `fake.json` what each run does:

    {"lint": {"reports": [["error", "no `a`"]], "status": 1}, "expand": {"files": {"lib.rs": "a"}}}

`plan` has the lines of the plan. `seconds` is how long a run sleeps, and `megabytes` how much
memory it takes. `kills` is `self` or `worker`: the run kills this process or its parent, at each
of the first `times` runs. The folder FAKE_LOG gets a line for each run.
"""
import json
import os
import signal
import sys
import time

FOREVER = 1 << 30


def kind_of_run():
    return next((it[2:] for it in ("--plan", "--lint") if it in sys.argv), "expand")


def logged(package, kind):
    """Adds a line to the log of a package, and returns how many runs of the kind it has."""
    with open(f"{os.environ['FAKE_LOG']}/{package}", "a+", encoding="utf-8") as log:
        log.write(f"{kind}\n")
        log.seek(0)
        return log.read().split("\n").count(kind)


def report(level, message):
    print(json.dumps({"level": level, "message": message, "rendered": "left out"}), file=sys.stderr)


def written(files):
    folder = sys.argv[sys.argv.index("--write") + 1]
    for name, text in {".expandm": "a list", **files}.items():
        with open(f"{folder}/{name}", "w", encoding="utf-8") as it:
            it.write(text)


def main():
    kind = kind_of_run()
    with open("fake.json", encoding="utf-8") as it:
        told = json.load(it).get(kind, {})
    number = logged(os.path.basename(os.getcwd()), kind)
    if "kills" in told and number <= told.get("times", FOREVER):
        os.kill(os.getppid() if told["kills"] == "worker" else os.getpid(), signal.SIGKILL)
    time.sleep(told.get("seconds", 0))
    try:
        bytearray(told.get("megabytes", 0) << 20)
    except MemoryError:
        report("error", "out of memory")
        return 2
    for line in told.get("plan", ["p 2021 lib.rs"] if kind == "plan" else []):
        print(line)
    for level, message in told.get("reports", []):
        report(level, message) if level else print(message, file=sys.stderr)
    if kind == "expand":
        written(told.get("files", {}))
    return told.get("status", 0)


if __name__ == "__main__":
    sys.exit(main())
