#!/usr/bin/env python3
"""Writes the files that list `expandm`'s options, or with --check compares them with the table.

The table is `OPTIONS` in crates/expandm/src/command_line.rt. The files are the man page's section
OPTIONS, the completions of bash, fish and zsh, and the table of docs/EXPANDM.md. With --check the
script writes nothing, and prints each file that isn't as the table says.
"""
import os
import re
import sys
from typing import NamedTuple

sys.path.insert(0, os.path.dirname(os.path.dirname(os.path.abspath(__file__))))
import common  # noqa: E402
from common import TOP  # noqa: E402

SOURCE = "crates/expandm/src/command_line.rt"
ROW = re.compile(
    r'OptionRow \{\s*name: "([^"]*)",\s*value: OptionValue::(\w+)'
    r'(?:\(\s*"((?:[^"\\]|\\.)*)",?\s*\))?,'
    r'\s*help: "((?:[^"\\]|\\.)*)",?\s*\}'
)
SHORT = {"package": "p"}
CHOICES = {"edition": "EDITIONS", "dialect": "DIALECTS", "target": "TARGETS"}
WITHOUT_WORDS = ("--depth | --fuel | --max-tokens | --call | --step | --cfg | --features | --extern | --package | -p | --bin"
                 " | --example | --bench")


class Option(NamedTuple):
    """An option: its long name, its short one, the kind and the name of its value, its help."""

    name: str
    short: str
    kind: str
    value: str
    help: str
    choices: tuple

    def usage(self):
        """The option as the help has it, such as `--edition <YEAR>`."""
        short = f"-{self.short}, " if self.short else ""
        value = {"Flag": "", "Optional": f"[=<{self.value}>]"}.get(self.kind, f" <{self.value}>")
        return f"{short}--{self.name}{value}"


def text_of(path):
    return common.read(f"{TOP}/{path}")


def options():
    source = text_of(SOURCE)
    found = []
    for name, kind, value, about in ROW.findall(source):
        choices = ()
        if kind == "Choice":
            listed = re.search(CHOICES[name] + r": \[&str; \d+\] = \[(.*?)\];", source, re.S)[1]
            choices = tuple(re.findall(r'"([^"]+)"', listed))
        plain = lambda text: text.replace('\\"', '"')
        found.append(Option(name, SHORT.get(name, ""), kind, plain(value), plain(about), choices))
    found.append(Option("help", "h", "Flag", "", "Print help", ()))
    found.append(Option("version", "V", "Flag", "", "Print version", ()))
    return found


# ---- the files

def markdown(found):
    rows = "".join(f"| `{it.usage()}` | {it.help} |\n" for it in found)
    return f"| Option | What it does |\n|---|---|\n{rows}"


def manual(found):
    escaped = lambda text: text.replace("\\", "\\\\").replace("-", "\\-").replace('"', "\\(dq")
    return "".join(f".TP\n.B {escaped(it.usage())}\n{escaped(it.help)}.\n" for it in found)


def bash(found):
    names = " ".join(f"--{it.name}" for it in found)
    case = "    --{}) mapfile -t COMPREPLY < <(compgen -W '{}' -- \"$word\"); return ;;\n"
    cases = "".join(case.format(it.name, " ".join(it.choices)) for it in found if it.choices)
    return f"""# Completion of expandm for bash, written by tools/docs/options.py.
_expandm() {{
    local word=${{COMP_WORDS[COMP_CWORD]}} before=${{COMP_WORDS[COMP_CWORD - 1]}}
    case $before in
{cases}    --manifest-path) mapfile -t COMPREPLY < <(compgen -f -- "$word"); return ;;
    --write | --root) mapfile -t COMPREPLY < <(compgen -d -- "$word"); return ;;
    {WITHOUT_WORDS}) COMPREPLY=(); return ;;
    esac
    case $word in
    -*) mapfile -t COMPREPLY < <(compgen -W '{names} -h -V -p' -- "$word") ;;
    *) mapfile -t COMPREPLY < <(compgen -f -X '!*.rs' -- "$word"; compgen -d -- "$word") ;;
    esac
}}
complete -o filenames -F _expandm expandm
"""


def fish(found):
    lines = "# Completion of expandm for fish, written by tools/docs/options.py.\n"
    for it in found:
        short = f" -s {it.short}" if it.short else ""
        given = "" if it.kind in ("Flag", "Optional") else " -r" if it.name == "manifest-path" else " -x"
        if it.choices:
            given += f" -a '{' '.join(it.choices)}'"
        if it.name in ("write", "root"):
            given += " -a '(__fish_complete_directories)'"
        about = it.help.replace("'", "\\'")
        lines += f"complete -c expandm{short} -l {it.name}{given} -d '{about}'\n"
    return lines


def zsh_value(option):
    if option.kind in ("Flag", "Optional"):
        return ""
    action = {"write": "_files -/", "root": "_files -/", "extern": "_files", "manifest-path": "_files"}.get(option.name, "")
    if option.choices:
        action = f"({' '.join(option.choices)})"
    return f":{option.value.split('[')[0].lower().replace(':', ' ')}:{action}"


def zsh(found):
    lines = "#compdef expandm\n# Written by tools/docs/options.py.\n_arguments \\\n"
    for it in found:
        about = re.sub(r"([\[\]:])", r"\\\1", it.help).replace("'", "'\\''")
        many = "*" if it.kind in ("List", "CommaList") else ""
        if it.short and it.value:
            both = f"-{it.short},--{it.name}"
            lines += f"    '({both.replace(',', ' ')})'{{{both}}}'[{about}]{zsh_value(it)}' \\\n"
        elif it.short:
            lines += f"    '(- *)'{{-{it.short},--{it.name}}}'[{about}]' \\\n"
        else:
            lines += f"    '{many}--{it.name}[{about}]{zsh_value(it)}' \\\n"
    return lines + "    '*:file:_files -g \"*.rs\"'\n"


def replaced(path, begin, end, text):
    """The file with that text between two marks, each the start of a line."""
    old = text_of(path)
    start = old.index(begin) + len(begin)
    return old[:start] + text + old[old.index(end, start):]


def files():
    found = options()
    return {
        "docs/EXPANDM.md": replaced(
            "docs/EXPANDM.md", "<!-- options -->\n", "<!-- end -->", markdown(found)),
        "share/man/expandm.1": replaced(
            "share/man/expandm.1", ".SH OPTIONS\n", ".SH ", manual(found)),
        "share/completions/expandm.bash": bash(found),
        "share/completions/expandm.fish": fish(found),
        "share/completions/_expandm": zsh(found),
    }


def main():
    parser = common.arguments(__doc__)
    parser.add_argument("--check", action="store_true", help="write nothing, print what differs")
    is_check = parser.parse_args().check
    wanted = files()
    different = [path for path, text in wanted.items() if text_of(path) != text]
    for path in different:
        if is_check:
            print(f"{path}: run tools/docs/options.py")
        else:
            common.write(f"{TOP}/{path}", wanted[path])
    return common.finish(len(wanted) - len(different), len(different)) if is_check else 0


if __name__ == "__main__":
    sys.exit(main())
