#!/usr/bin/env python3
"""Prints what each function's proof cost, from the work that a check kept.

First check the crate with one job:

    (cd crates/CRATE && rm -rf out/incremental && rt check --jobs 1)

Then the files of out/incremental are written in the order of the proof, so the time between two
files is what the second took. The script prints the seconds of each part over all functions.
`Lts` and `Tie` grow with the code; `Proof` and `Answers` have what `search` took. Then it prints
the COUNT functions that took most, with the seconds of these parts, and the megabytes of their
`Lts`. `Lts` grows faster than the code: split a function that has more than 4 megabytes. A pause
of over 200 seconds between two files is another check, and doesn't count.
"""
import collections
import os
import re
import sys

sys.path.insert(0, os.path.dirname(os.path.dirname(os.path.abspath(__file__))))
import common  # noqa: E402

PARTS = ("Lts", "Tie", "Proof", "Answers")
NAMED = re.compile(r"Rattle-\w+-proofs\.(?P<function>.+?)\.(?:Code\.)?(?P<part>[A-Z]\w*)(?:\.decls)?\.oantt")
PAUSE = 200


def written(folder):
    """The files of a folder and the times at which they were written, the oldest first."""
    found = []
    for top, _, names in os.walk(folder):
        found += [(os.stat(os.path.join(top, name)).st_mtime_ns, name) for name in names if name.endswith(".oantt")]
    return sorted(found)


def sizes(folder):
    """Megabytes of what a function's code is to the prover, by function."""
    found = {}
    for top, _, names in os.walk(folder):
        for name in names if os.path.basename(top) != "records" else []:
            it = NAMED.match(name)
            if it and it["part"] == "Lts":
                found[it["function"]] = os.stat(os.path.join(top, name)).st_size / 1e6
    return found


def times(files):
    """Seconds by function and part."""
    took = collections.defaultdict(collections.Counter)
    for (before, _), (at, name) in zip(files, files[1:]):
        it = NAMED.match(name)
        seconds = (at - before) / 1e9
        if it and seconds < PAUSE:
            function, of_code, _ = it["function"].partition(".Lts")
            took[function]["Lts" if of_code else it["part"]] += seconds
    return took


def line(name, parts, megabytes):
    return " ".join([f"{sum(parts.values()):8.1f}", *[f"{parts[part]:8.1f}" for part in PARTS], f"{megabytes:8.1f}", f" {name}"])


def main():
    parser = common.arguments(__doc__)
    parser.add_argument("crate", metavar="CRATE")
    parser.add_argument("count", metavar="COUNT", type=int, nargs="?", default=25)
    args = parser.parse_args()
    folder = f"{common.TOP}/crates/{args.crate}/out/incremental"
    if not os.path.isdir(folder):
        sys.exit(f"no folder {folder}: run rt check first")
    took, large = times(written(folder)), sizes(folder)
    print(" ".join(["     all", *[f"{part:>8}" for part in PARTS], "      MB"]))
    print(line("(all functions)", sum(took.values(), collections.Counter()), sum(large.values())))
    for name, parts in sorted(took.items(), key=lambda it: -sum(it[1].values()))[:args.count]:
        print(line(name, parts, large.get(name, 0)))


if __name__ == "__main__":
    main()
