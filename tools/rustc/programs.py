#!/usr/bin/env python3
"""Judges `expandm` by random programs. From any folder:

    python3 tools/rustc/programs.py --seed 1 --count 500 --expandm /tmp/expandm --out /tmp/found

Each program compiles, runs and prints. rustc compiles it as it is, and as `expandm` expands it. The
judge compares the two outputs. It puts many programs into one crate, as modules. It makes a program
that differs smaller, and writes it into the folder of `--out`. The first line says what differs.
The same seed gives the same programs.

| Class | Meaning |
|---|---|
| same | both print the same |
| refused | `expandm` reports an error in the program |
| silent | the expanded program prints something else, and `expandm` reports nothing |
| noted | the expanded program prints something else, and a note of `expandm` is in the program |
| not compiling | rustc refuses the expanded program |
| thrown away | rustc refuses the program as it is |

The last line is `N passed, M failed`. Silent programs and programs that don't compile count as
failed.
"""
import argparse
import collections
import concurrent.futures
import json
import os
import re
import shutil
import subprocess
import sys
import tempfile

import minimiser
import writer
from forms import PRELUDE

EDITIONS = ["2015", "2018", "2021", "2024"]
OPTIONS = ["--cfg", "on", "--cfg", 'feature="f"']
RUSTC = ["rustc", *OPTIONS, "-C", "opt-level=0", "-C", "debuginfo=0", "-C", "overflow-checks=off",
         "--cap-lints", "allow", "--error-format=json", "--crate-name", "program"]
CLASSES = ["same", "refused", "silent", "noted", "not compiling", "thrown away"]

ENDLESS = "doesn't end"


class Result:
    """What became of a program: its class, the two outputs, and a message."""

    def __init__(self, kind, wanted="", got="", message=""):
        self.kind, self.wanted, self.got, self.message = kind, wanted, got, message


def errors_of(text):
    """rustc's errors: of each its message, and the files where the user's text has it."""
    for line in text.splitlines():
        if not line.startswith("{"):
            continue
        said = json.loads(line)
        if said.get("level") != "error" or not said["spans"]:
            continue
        span = next((s for s in said["spans"] if s["is_primary"]), said["spans"][0])
        files = []
        while span:
            files.append(os.path.basename(span["file_name"]))
            span = span["expansion"]["span"] if span["expansion"] else None
        code = f" ({said['code']['code']})" if said["code"] else ""
        yield said["message"].splitlines()[0] + code, files


def compiled(source, edition):
    """Compiles the file. Returns the program, or the errors."""
    program = source[:-3]
    words = [*RUSTC, "--edition", edition, "-o", program, source]
    try:
        run = subprocess.run(words, capture_output=True, text=True, timeout=120, errors="replace")
    except subprocess.TimeoutExpired:
        return None, [("rustc doesn't end", [])]
    if run.returncode == 0:
        return program, []
    return None, list(errors_of(run.stderr)) or [(f"rustc fails: {run.stderr[-200:]}", [])]


def printed(program):
    """What the program prints, with its status if that isn't 0, or with `doesn't end`."""
    try:
        run = subprocess.run([program], capture_output=True, timeout=5)
    except subprocess.TimeoutExpired as stopped:
        return (stopped.stdout or b"").decode(errors="replace") + ENDLESS
    text = run.stdout.decode(errors="replace")
    return text if run.returncode == 0 else f"{text}status {run.returncode}"


def expanded(expandm, source, folder, edition):
    """Expands the file and those of its modules into the folder. Returns the reports: the level,
    the file and the message of each."""
    words = [expandm, "--json", "--edition", edition, *OPTIONS, "--write", folder, source]
    try:
        run = subprocess.run(words, capture_output=True, text=True, timeout=120, errors="replace")
    except subprocess.TimeoutExpired:
        return [("error", "", "expandm doesn't end")]
    reports = []
    for line in run.stderr.splitlines():
        found = json.loads(line) if line.startswith("{") else None
        for said in (found, *found["children"]) if found else ():
            at = os.path.basename(said["spans"][0]["file_name"]) if said["spans"] else ""
            reports.append((said["level"], at, said["message"]))
    if run.returncode not in (0, 1):
        reports.append(("error", "", f"expandm has status {run.returncode}"))
    return reports


def written(folder, name, text):
    os.makedirs(folder, exist_ok=True)
    path = f"{folder}/{name}.rs"
    with open(path, "w", encoding="utf-8") as out:
        out.write(text)
    return path


def write_crate(folder, programs):
    """Writes the programs as one crate, each as a module in a file. `main` prints a mark before
    each of them."""
    for program in programs:
        written(folder, f"c{program.number}", program.module())
    modules = "".join(f"pub mod c{p.number};\n" for p in programs)
    runs = "".join(f'    println!("\\n//@ {p.number}"); '
                   f"let _ = std::panic::catch_unwind(c{p.number}::run);\n" for p in programs)
    main = f"fn main() {{\n    std::panic::set_hook(Box::new(|_| println!(\"panic\")));\n{runs}}}\n"
    return written(folder, "crate", f"{PRELUDE}\n{modules}{main}")


def number_of(name):
    """The number of the program that the file of a module has, or 0."""
    found = re.match(r"c(\d+)\.rs\Z", name)
    return int(found.group(1)) if found else 0


def blamed(errors):
    """The programs that the errors are in, each with its first message."""
    found = {}
    for message, files in errors:
        for number in filter(None, map(number_of, files)):
            found.setdefault(number, message)
    return found


def outputs(text):
    """What each program of a crate printed."""
    parts = re.split(r"^//@ (\d+)\n", text, flags=re.M)
    return {int(n): said.strip() for n, said in zip(parts[1::2], parts[2::2])}


def last_of(text):
    """The number of the last program that began."""
    found = re.findall(r"^//@ (\d+)\n", text, flags=re.M)
    return int(found[-1]) if found else 0


class Judge:
    """Runs programs on rustc as they are, and as expandm expands them."""

    def __init__(self, expandm, folder, edition):
        self.expandm, self.folder, self.edition = expandm, folder, edition
        self.results, self.tried = {}, 0

    def halves(self, programs):
        """Judges the programs in two crates, where no line says which of them is wrong."""
        middle = len(programs) // 2
        self.batch(programs[:middle])
        self.batch(programs[middle:])

    def batch(self, programs):
        """Judges the programs in one crate, without those that rustc refuses."""
        programs = list(programs)
        while programs:
            source = write_crate(f"{self.folder}/in", programs)
            program, errors = compiled(source, self.edition)
            text = printed(program) if program else ""
            if program and not text.endswith(ENDLESS):
                self.expand(programs, source, outputs(text))
                return
            bad = {last_of(text): ENDLESS} if program else blamed(errors)
            if len(programs) == 1 and not program:
                bad = {programs[0].number: errors[0][0]}
            if not bad:
                self.halves(programs)
                return
            for number, message in bad.items():
                self.results[number] = Result("thrown away", message=message)
            programs = [p for p in programs if p.number not in bad]

    def expand(self, programs, source, wanted):
        """Judges programs of one crate that rustc takes. Leaves out those that don't compile."""
        said = collections.defaultdict(list)
        out = f"{self.folder}/out"
        for level, file, message in expanded(self.expandm, source, out, self.edition):
            said[number_of(file)].append((level, message))
        while programs:
            program, errors = compiled(f"{self.folder}/out/crate.rs", self.edition)
            if program:
                self.compare(programs, wanted, printed(program), said)
                return
            bad = blamed(errors)
            if len(programs) == 1:
                bad = {programs[0].number: errors[0][0]}
            if not bad:
                self.halves(programs)
                return
            for number, message in bad.items():
                is_refused = any(level == "error" for level, _ in said[number])
                kind = "refused" if is_refused else "not compiling"
                self.results[number] = Result(kind, wanted.get(number, ""), "", message)
            programs = [p for p in programs if p.number not in bad]
            self.leave_out(bad)

    def leave_out(self, numbers):
        """Takes modules out of the expanded crate."""
        path = f"{self.folder}/out/crate.rs"
        with open(path, encoding="utf-8") as file:
            text = file.read()
        for number in numbers:
            text = re.sub(rf"pub mod c{number};|.*\bc{number}::run.*", "", text)
        written(f"{self.folder}/out", "crate", text)

    def compare(self, programs, wanted, text, said):
        """Compares the outputs. If a program doesn't end, the programs after it are judged again."""
        got, last = outputs(text), last_of(text)
        if text.endswith(ENDLESS):
            self.batch([p for p in programs if p.number > last])
            programs = [p for p in programs if p.number <= last]
        for program in programs:
            number = program.number
            one, two = wanted.get(number, ""), got.get(number, "")
            messages = "; ".join(sorted({m for _, m in said[number]}))
            kind = "same" if one == two else ("noted" if said[number] else "silent")
            if any(level == "error" for level, _ in said[number]):
                kind = "refused"
            self.results[number] = Result(kind, one, two, messages)

    def alone(self, text):
        """The result of one whole file."""
        source = written(f"{self.folder}/alone", "alone", text)
        program, errors = compiled(source, self.edition)
        if not program:
            return Result("thrown away", message=errors[0][0])
        wanted = printed(program)
        reports = expanded(self.expandm, source, f"{self.folder}/out", self.edition)
        messages = "; ".join(sorted({m for _, _, m in reports}))
        if any(level == "error" for level, _, _ in reports):
            return Result("refused", wanted, "", messages)
        program, errors = compiled(f"{self.folder}/out/alone.rs", self.edition)
        if not program:
            return Result("not compiling", wanted, "", errors[0][0])
        got = printed(program)
        kind = "same" if wanted == got else ("noted" if reports else "silent")
        return Result(kind, wanted, got, messages)


def kept(result):
    """What a smaller program has in common with the whole one: the class and the message."""
    message = re.sub(r"`[^`]*`", "``", result.message.split(";")[0])[:60]
    return (result.kind, message) if result.kind in ("not compiling", "refused") else (result.kind,)


def comment(result, edition):
    """The first line of a program that is written."""
    show = lambda text: " / ".join(text.split("\n"))[:300]
    said = f"// {result.kind}, edition {edition}: rustc prints `{show(result.wanted)}`"
    if result.kind in ("silent", "noted"):
        said += f"; as expanded it prints `{show(result.got)}`"
    return said + (f"; {show(result.message)}" if result.message else "")


def smaller(program, result, judge, options):
    """Writes the smallest program found that still differs so."""
    aim = kept(result)
    whole = program.text()

    def test(texts):
        inner = Judge(judge.expandm, judge.folder, judge.edition)
        candidates = [writer.Program.of_text(at + 1, judge.edition, t)
                      for at, t in enumerate(texts)]
        inner.batch(candidates)
        return [kept(inner.results[c.number]) == aim for c in candidates]

    text = minimiser.smallest(whole, test, options.tries)
    last = writer.Program.of_text(program.number, judge.edition, text)
    alone = last.alone()
    final = judge.alone(alone)
    if final.kind != result.kind:
        final = result
    name = f"{result.kind.replace(' ', '_')}_{options.seed}_{program.number}.rs"
    with open(f"{options.out}/{name}", "w", encoding="utf-8") as out:
        out.write(f"{comment(final, program.edition)}\n{alone.strip()}\n")


def judged(task):
    """Judges one crate of programs, and those that differ again by themselves. Runs in a process of
    its own."""
    numbers, edition, options = task
    programs = [writer.program(options.seed, n, edition) for n in numbers]
    folder = tempfile.mkdtemp(prefix="programs", dir=options.folder)
    judge = Judge(options.expandm, folder, edition)
    judge.batch(programs)
    for program in programs:
        if judge.results[program.number].kind not in ("same", "thrown away"):
            judge.batch([program])
    shutil.rmtree(folder)
    return [(n, edition, judge.results[n]) for n in numbers]


def made_smaller(task):
    """Makes one program smaller. Runs in a process of its own."""
    number, edition, result, options = task
    folder = tempfile.mkdtemp(prefix="programs", dir=options.folder)
    program = writer.program(options.seed, number, edition)
    smaller(program, result, Judge(options.expandm, folder, edition), options)
    shutil.rmtree(folder)


def picked(rows, options):
    """The programs that are made smaller: some of each class and kind of message."""
    counts = collections.Counter()
    kinds = ["silent", "not compiling"] + (["refused", "noted"] if options.all else [])
    for number, edition, result in rows:
        sort = (result.kind, re.sub(r"`[^`]*`", "``", result.message.split(";")[0])[:60])
        counts[sort] += 1
        if result.kind in kinds and counts[sort] <= options.each:
            yield number, edition, result, options


def parsed():
    parser = argparse.ArgumentParser(description=__doc__.split("\n", maxsplit=1)[0])
    parser.add_argument("--seed", type=int, default=1, help="the seed of the programs")
    parser.add_argument("--count", type=int, default=100, help="how many programs are written")
    parser.add_argument("--jobs", type=int, default=1, help="how many crates are judged at once")
    parser.add_argument("--expandm", default="expandm", metavar="PROGRAM",
                        help="the program to judge")
    parser.add_argument("--out", metavar="DIR", help="where smallest programs are written")
    parser.add_argument("--edition", choices=EDITIONS, help="one edition; else all four, in turn")
    parser.add_argument("--crate", type=int, default=16, help="how many programs are in one crate")
    parser.add_argument("--tries", type=int, default=20,
                        help="how many crates are judged to make a program smaller")
    parser.add_argument("--folder", metavar="DIR", help="where crates are compiled, as /dev/shm")
    parser.add_argument("--each", type=int, default=5,
                        help="how many programs of one message are made smaller")
    parser.add_argument("--all", action="store_true",
                        help="writes programs that are refused or noted, too")
    parser.add_argument("--show", type=int, metavar="N", help="prints program N, and ends")
    return parser.parse_args()


def tasks(options):
    """Crates of programs: numbers, and an edition."""
    numbers = list(range(1, options.count + 1))
    for at in range(0, len(numbers), options.crate):
        edition = options.edition or EDITIONS[at // options.crate % 4]
        yield numbers[at:at + options.crate], edition, options


def main():
    options = parsed()
    if options.show:
        edition = options.edition or EDITIONS[(options.show - 1) // options.crate % 4]
        print(writer.program(options.seed, options.show, edition).alone())
        return
    if options.out:
        os.makedirs(options.out, exist_ok=True)
    counts, thrown, all_rows = collections.Counter(), collections.Counter(), []
    with concurrent.futures.ProcessPoolExecutor(options.jobs) as pool:
        for rows in pool.map(judged, tasks(options)):
            all_rows += rows
            for number, _, result in rows:
                counts[result.kind] += 1
                if result.kind == "thrown away":
                    thrown[result.message] += 1
                elif result.kind != "same":
                    print(f"program {number}: {result.kind}: {result.message[:150]}", flush=True)
        if options.out:
            list(pool.map(made_smaller, picked(all_rows, options)))
    for message, count in thrown.most_common(5):
        print(f"thrown away {count} times: {message[:120]}")
    print("\n| Class | Programs |\n|---|---|")
    for kind in CLASSES:
        print(f"| {kind} | {counts[kind]} |")
    failed = counts["silent"] + counts["not compiling"]
    print(f"{sum(counts.values()) - counts['thrown away'] - failed} passed, {failed} failed")
    sys.exit(1 if failed else 0)


if __name__ == "__main__":
    main()
