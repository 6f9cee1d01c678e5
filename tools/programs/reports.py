#!/usr/bin/env python3
"""Compares the reports of `expandm` with what their readers accept.

- `genhtml` of lcov 1.16 or later reads `--coverage=lcov` without a warning, and its page has the
  lines and the functions of the report.
- Each log of `--sarif` meets the schema below: the parts of SARIF 2.1.0's schema that a log of
  `expandm` has. No other member is allowed. A rule that a result names is in the list of rules,
  and a region ends where or after it begins.

The files are those of tests/expandm/coverage.py and tests/expandm/sarif.py. It needs `genhtml` and
Python's `jsonschema`, as of Debian's packages `lcov` and `python3-jsonschema`.
"""
import json
import os
import re
import shutil
import subprocess
import sys

sys.path.insert(0, os.path.dirname(os.path.dirname(os.path.abspath(__file__))))
import common  # noqa: E402

sys.path.insert(0, f"{common.TOP}/tests")
from expandm import coverage, sarif  # noqa: E402


def members(required, optional=None):
    """The schema of an object with these members, and no other."""
    return {
        "type": "object",
        "properties": {**required, **(optional or {})},
        "required": list(required),
        "additionalProperties": False,
    }


def listed(items):
    return {"type": "array", "items": items}


TEXT = {"type": "string"}
COUNT = {"type": "integer", "minimum": 1}
MESSAGE = members({"text": TEXT})
LEVEL = {"enum": ["none", "note", "warning", "error"]}
# A relative reference or a URI, as of RFC 3986.
URI = {"type": "string", "pattern": r"^(file:///)?([A-Za-z0-9._~/-]|%[0-9A-F]{2})+$"}
REGION = members({"startLine": COUNT, "startColumn": COUNT, "endLine": COUNT, "endColumn": COUNT})
PHYSICAL = members({"artifactLocation": members({"uri": URI}), "region": REGION})
RESULT = members({
    "ruleId": TEXT,
    "level": LEVEL,
    "message": MESSAGE,
    "locations": listed(members({"physicalLocation": PHYSICAL})),
    "relatedLocations": listed(members({"physicalLocation": PHYSICAL, "message": MESSAGE})),
})
RULE = members({
    "id": TEXT,
    "shortDescription": MESSAGE,
    "fullDescription": MESSAGE,
    "help": MESSAGE,
    "defaultConfiguration": members({"level": LEVEL}),
})
DRIVER = members({"name": TEXT, "version": TEXT, "rules": {**listed(RULE), "uniqueItems": True}})
RUN = members({
    "tool": members({"driver": DRIVER}),
    "columnKind": {"enum": ["utf16CodeUnits", "unicodeCodePoints"]},
    "results": listed(RESULT),
})
LOG = members({
    "$schema": {"type": "string", "format": "uri"},
    "version": {"const": "2.1.0"},
    "runs": listed(RUN),
})


def regions(result):
    places = [*result["locations"], *result["relatedLocations"]]
    return [place["physicalLocation"]["region"] for place in places]


def faults_of(log, schema):
    """What is wrong with a log."""
    faults = [error.message for error in schema.iter_errors(log)]
    if faults:
        return faults
    (run,) = log["runs"]
    known = {rule["id"] for rule in run["tool"]["driver"]["rules"]}
    for result in run["results"]:
        if result["ruleId"] not in known:
            faults.append(f"no rule {result['ruleId']}")
        for at in regions(result):
            start = at["startLine"], at["startColumn"]
            if (at["endLine"], at["endColumn"]) < start:
                faults.append(f"a region that ends before it begins: {at}")
    return faults


def run(program, folder, words, files):
    """A run in a new folder with these files."""
    shutil.rmtree(folder, ignore_errors=True)
    for path, text in files.items():
        at = os.path.join(folder, path)
        os.makedirs(os.path.dirname(at), exist_ok=True)
        with open(at, "w", encoding="utf-8", newline="") as it:
            it.write(text)
    ran = subprocess.run([program, *words], cwd=folder, capture_output=True, check=False)
    return ran.stdout.decode()


def try_log(program, folder, row, schema):
    words, text, _ = row
    run(program, folder, [*words.split(), "--sarif", "log.sarif", "a.rs"], {"a.rs": text})
    path = f"{folder}/log.sarif"
    if not os.path.exists(path):
        return ["no log"]
    return faults_of(json.loads(common.read(path)), schema)


def counted(text, tag):
    """The sum of the numbers of a kind of line in a report."""
    return sum(map(int, re.findall(f"^{tag}:([0-9]+)$", text, re.M)))


def try_lcov(program, folder, words, files):
    """What `genhtml` says of a report, and where its page has other numbers."""
    report = run(program, folder, ["--coverage=lcov", *words], files)
    with open(f"{folder}/rules.info", "w", encoding="utf-8") as it:
        it.write(report)
    ran = subprocess.run(
        ["genhtml", "--function-coverage", "--output-directory", "out", "rules.info"],
        cwd=folder, capture_output=True, text=True, check=False)
    said = ran.stdout + ran.stderr
    faults = [line for line in said.splitlines() if re.search("warning|error", line, re.I)]
    if ran.returncode:
        faults.append(f"genhtml ends with status {ran.returncode}")
    for name, hit, found in (("lines", "LH", "LF"), ("functions", "FNH", "FNF")):
        numbers = re.search(rf"{name}\.*: .*\(([0-9]+) of ([0-9]+)", said)
        want = counted(report, hit), counted(report, found)
        if not numbers or tuple(map(int, numbers.groups())) != want:
            faults.append(f"{name}: wanted {want}, got {numbers and numbers.groups()}")
    return faults


def main():
    parser = common.arguments(__doc__)
    common.add_expandm(parser)
    args = parser.parse_args()
    program = args.program or common.expandm()
    if not shutil.which("genhtml"):
        sys.exit("no genhtml: install lcov")
    try:
        import jsonschema  # noqa: PLC0415
    except ImportError:
        sys.exit("no jsonschema: install python3-jsonschema")
    schema = jsonschema.Draft7Validator(LOG)
    passed = failed = 0
    with common.folder() as folder:
        at = f"{folder}/files"
        logs = [(row, try_log(program, at, row, schema)) for row in (*sarif.RESULTS, *sarif.KINDS)]
        rows = [([*row[0].split(), "a.rs"], {"a.rs": row[1]}) for row in coverage.ROWS if row[2]]
        rows += [(row[0].split(), coverage.PACKAGE) for row in coverage.PACKAGES]
        reports = [(row, try_lcov(program, at, *row)) for row in rows]
        for row, faults in (*logs, *reports):
            passed, failed = passed + (not faults), failed + bool(faults)
            for fault in faults:
                print(f"{row}: {fault}")
    return common.finish(passed, failed)


if __name__ == "__main__":
    sys.exit(main())
