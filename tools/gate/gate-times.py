#!/usr/bin/env python3
"""Runs the gate, and measures what each crate costs it: time of processors, and memory.

Run it at the top of a clean clone. COMMAND is `rt ci` unless it is given. FOLDER is outside the
clone. It gets these files:

ci.log      What the gate wrote, each line with the second at which it came.
parts.tsv   A line for each process: crate, part, start, end, CPU seconds, most memory.
table.md    The table of docs/GATE.md, in minutes of one processor.

The script writes the last two anew each minute, so a run that is cut off leaves them. A process
counts with all that it starts. The script looks at processes every half second, so the last part
of a process is missing. The table compares the sum of the parts with the CPU time that the gate
itself counted.
"""
import argparse
import os
import re
import subprocess
import sys
import threading
import time

sys.path.insert(0, os.path.dirname(os.path.dirname(os.path.abspath(__file__))))
import common  # noqa: E402

HZ = os.sysconf("SC_CLK_TCK")
PAGE = os.sysconf("SC_PAGE_SIZE")
PARTS = ("proof", "edits", "tests", "program")


def stats():
    """By process: parent, start, own ticks, ticks of the children that it has waited for, and pages of memory."""
    found = {}
    for name in os.listdir("/proc"):
        if not name.isdigit():
            continue
        try:
            with open(f"/proc/{name}/stat", encoding="utf-8", errors="replace") as it:
                text = it.read()
        except OSError:
            continue
        rest = text[text.rindex(")") + 2 :].split()
        # rest[0] is the state; utime is field 14 of stat, and the fields before rest[0] are two
        found[int(name)] = (int(rest[1]), int(rest[19]), int(rest[11]) + int(rest[12]), int(rest[13]) + int(rest[14]), int(rest[21]))
    return found


def words_of(pid):
    try:
        with open(f"/proc/{pid}/cmdline", "rb") as it:
            words = it.read().decode(errors="replace").split("\0")
        return words, os.readlink(f"/proc/{pid}/cwd")
    except OSError:
        return [], ""


def part_of(words, cwd):
    """The crate and the part of the gate that a process works on."""
    first = os.path.basename(words[0]) if words else ""
    if first == "rattle" and "--crate-name" in words:
        name = words[words.index("--crate-name") + 1]
        if os.path.basename(cwd).startswith("rt-edit-"):
            return name, "edits"
        if "--test" in words:
            return name, "tests"
        if "--crate-checked" in words:
            return name, "program"
        return name, "proof"
    if first in ("rattle-link", "clang", "ld.lld", "lld"):
        made = os.path.basename(words[words.index("-o") + 1]) if "-o" in words else ""
        name = os.path.basename(cwd)
        return name, "tests" if made.startswith(f"{name}_tests") else "program"
    return "", "other"


class Sampler:
    def __init__(self, root, folder):
        self.root, self.folder, self.begin = root, folder, time.time()
        # (pid, start) -> [crate, part, first seen, last seen, ticks, most bytes]
        self.seen, self.own = {}, (0, 0)

    def below(self, found):
        children = {}
        for pid, it in found.items():
            children.setdefault(it[0], []).append(pid)
        return children

    def look(self):
        found = stats()
        if self.root not in found:
            return
        children, now = self.below(found), time.time() - self.begin
        self.own = found[self.root][2:4]
        for top in children.get(self.root, []):
            key = (top, found[top][1])
            crew, todo = [], [top]
            while todo:
                pid = todo.pop()
                crew.append(pid)
                todo += children.get(pid, [])
            ticks = sum(found[it][2] + found[it][3] for it in crew)
            held = sum(found[it][4] for it in crew) * PAGE
            if key not in self.seen:
                self.seen[key] = ["", "other", now, now, 0, 0]
            row = self.seen[key]
            if row[1] == "other":
                # (a process is first the helper that then becomes the prover)
                row[0:2] = part_of(*words_of(top))
            row[3], row[4], row[5] = now, max(row[4], ticks), max(row[5], held)

    def write(self):
        rows = sorted(self.seen.values(), key=lambda it: it[2])
        with open(f"{self.folder}/parts.tsv", "w", encoding="utf-8") as it:
            it.write("crate\tpart\tstart_s\tend_s\tcpu_s\tmost_MB\n")
            for name, part, start, end, ticks, held in rows:
                it.write(f"{name or '-'}\t{part}\t{start:.0f}\t{end:.0f}\t{ticks / HZ:.1f}\t{held / 1e6:.0f}\n")
        with open(f"{self.folder}/table.md", "w", encoding="utf-8") as it:
            it.write(self.table(rows))

    def table(self, rows):
        minutes, tries = {}, {}
        for name, part, _, _, ticks, _ in rows:
            minutes[name, part] = minutes.get((name, part), 0) + ticks / HZ / 60
            tries[name] = tries.get(name, 0) + (part == "edits")
        lines = common.read("crates.txt").split("\n")
        names = [re.match(r"\w+", it)[0] for it in lines if re.match(r"\w+\s*(staticlib)?:", it)]
        text = "| Crate | Proof | Edits | Their time | Tests, proved and built |\n|---|---|---|---|---|\n"
        cell = lambda it: f"{it:.1f}" if it else ""
        for name in names:
            folder = f"crates/{name}/must-fail"
            edits = len([it for it in os.listdir(folder) if it.endswith(".edit")]) if os.path.isdir(folder) else 0
            proof = minutes.get((name, "proof"), 0) + minutes.get((name, "program"), 0)
            row = [f"`{name}`", cell(proof), str(edits) if edits else "none", cell(minutes.get((name, "edits"), 0)), cell(minutes.get((name, "tests"), 0))]
            text += "| " + " | ".join(row) + " |\n"
        total = lambda *parts: sum(it for (_, part), it in minutes.items() if part in parts)
        text += f"| all | {total('proof', 'program'):.1f} | | {total('edits'):.1f} | {total('tests'):.1f} |\n\n"
        most = max(rows, key=lambda it: it[5], default=["", "", 0, 0, 0, 0])
        text += f"Sum of the parts {total(*PARTS):.1f} minutes, all else below the gate (programs, tests run) {total('other'):.1f}; "
        text += f"the gate counts {self.own[1] / HZ / 60:.1f} for what it started and {self.own[0] / HZ / 60:.1f} for itself.\n"
        text += f"Most memory of a part: {most[5] / 1e9:.2f} GB ({most[0]} {most[1]}). Wall time {(time.time() - self.begin) / 60:.1f} minutes on "
        text += f"{len(os.sched_getaffinity(0))} processors, load at the end {os.getloadavg()[0]:.1f}.\n"
        text += f"Begun {time.strftime('%d %B %Y %H:%M', time.gmtime(self.begin))} UTC.\n"
        return text


def main():
    parser = common.arguments(__doc__)
    parser.add_argument("folder", metavar="FOLDER", type=os.path.abspath)
    parser.add_argument("command", metavar="COMMAND", nargs=argparse.REMAINDER)
    args = parser.parse_args()
    folder, command = args.folder, args.command or ["rt", "ci"]
    os.makedirs(folder, exist_ok=True)
    ran = subprocess.Popen(command, stdin=subprocess.DEVNULL, stdout=subprocess.PIPE, stderr=subprocess.STDOUT, errors="replace")
    sampler = Sampler(ran.pid, folder)

    def copy():
        with open(f"{folder}/ci.log", "w", encoding="utf-8") as log:
            for line in ran.stdout:
                log.write(f"{time.time() - sampler.begin:7.0f} {line}")
                log.flush()
                sys.stdout.write(line)
                sys.stdout.flush()

    writer = threading.Thread(target=copy)
    writer.start()
    last = 0
    while ran.poll() is None:
        sampler.look()
        if time.time() - last > 60:
            sampler.write()
            last = time.time()
        time.sleep(0.5)
    writer.join()
    sampler.write()
    print(common.read(f"{folder}/table.md"), end="")
    sys.exit(ran.returncode)


if __name__ == "__main__":
    main()
