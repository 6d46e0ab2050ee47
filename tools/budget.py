"""Prints the size of the tree beside what budget.txt allows.

    tools/budget

It prints a line for each row of budget.txt: the size, what is allowed, and of what. Status 1 if one is too large. It
counts lines of the files in git, and words of documents. The weight of the gate is only printed: bench/weight measures
it, and whoever runs that from nothing writes it down.
"""

import re
import subprocess
import sys
from collections.abc import Callable
from pathlib import Path

from tools.root import ROOT

BUDGET = ROOT / "budget.txt"

# The head of a function, as `rt fmt` lays it out.
FUNCTION = re.compile(r"( *)(?:pub(?:\([^)]*\))? )?(?:const )?(?:unsafe )?fn \w+")

# The first lines of programs whose names have no suffix.
SHELL, PYTHON = re.compile(r"#!.*[ /](?:ba)?sh\b"), re.compile(r"#!.*[ /]python3\b")


def names() -> list[Path]:
    """The files of the tree, without links."""
    found = subprocess.check_output(["git", "ls-files", "-z"], cwd=ROOT, text=True)
    paths = (Path(name) for name in sorted(set(found.split("\0"))) if name)
    return [path for path in paths if (ROOT / path).is_file() and not (ROOT / path).is_symlink()]


class File:
    """A file of the tree: its path from the top, and its text."""

    def __init__(self, path: Path) -> None:
        self.path = path
        self.top = path.parts[0]
        data = (ROOT / path).read_bytes()
        self.is_text = b"\0" not in data
        self.text = data.decode(errors="replace")

    def lines(self) -> int:
        return self.text.count("\n")

    def is_shell(self) -> bool:
        return self.path.suffix == ".sh" or bool(SHELL.match(self.text))

    def is_python(self) -> bool:
        return self.path.suffix == ".py" or bool(PYTHON.match(self.text))

    def is_page_test(self) -> bool:
        return self.path.parts[:2] == ("tests", "page")

    def is_rattle(self) -> bool:
        return self.top == "crates" and self.path.suffix in {".rt", ".antt"}

    def is_else(self) -> bool:
        """Whether it ships or tests, and is neither Python, JavaScript, shell nor a document."""
        others = self.top in {"programs", "packaging", "tests", "bench"} and self.path.suffix not in {".js", ".md"}
        return others and self.is_text and not self.is_shell() and not self.is_python()


def has_body(lines: list[str], indent: str) -> bool:
    """Whether the function that begins with these lines has a body: a brace after its head and clauses, which are
    indented further, and no semicolon outside brackets."""
    depth = 0
    for line in lines:
        depth += sum((sign in "([{") - (sign in ")]}") for sign in line)
        if line.endswith(";") and depth == 0:
            return False
        if re.match(rf"{indent}\S.*[{{}}]$|{indent}{{$", line):
            return True
    return False


def functions(file: File) -> int:
    if file.top != "crates" or file.path.suffix != ".rt" or file.path.parts[1].endswith("_tests"):
        return 0
    lines = file.text.splitlines()
    heads = ((place, head[1]) for place, line in enumerate(lines) if (head := FUNCTION.match(line)))
    return sum(has_body(lines[place:], indent) for place, indent in heads)


def lines_where(holds: Callable[[File], bool]) -> Callable[[File], int]:
    return lambda file: file.lines() if holds(file) else 0


def python_in(*tops: str) -> Callable[[File], int]:
    return lines_where(lambda file: file.top in tops and file.is_python())


# What each row counts in a file.
ROWS: dict[str, Callable[[File], int]] = {
    "lines of Rattle": lines_where(File.is_rattle),
    "functions of Rattle, without the test crates": functions,
    "lines of shipped Python": python_in("programs", "bin"),
    "lines of Python in tests, tools and bench": python_in("tests", "tools", "bench"),
    "lines of JavaScript of the page": lines_where(lambda file: file.path.suffix == ".js" and file.top == "page"),
    "lines of JavaScript in tests": lines_where(lambda file: file.path.suffix == ".js" and file.top == "tests"),
    "lines of page tests in all languages": lines_where(File.is_page_test),
    "lines of shell": lines_where(File.is_shell),
    "lines of all else in programs, packaging, tests and bench": lines_where(File.is_else),
    "words of documents": lambda file: len(file.text.split()) if file.path.suffix == ".md" else 0,
}

WEIGHED = "times the proofs of csv_records and onix_terms: the last gate from nothing"


def rows() -> dict[str, str]:
    lines = BUDGET.read_text(encoding="utf-8").splitlines()
    return {name: number for number, name in (line.split(maxsplit=1) for line in lines if line and line[0] != "#")}


def main() -> int:
    told = rows()
    weight = told.pop(WEIGHED, "unknown")
    budget = {name: int(number) for name, number in told.items()}
    if set(budget) != set(ROWS):
        print(f"budget.txt: its rows have to be: {', '.join(ROWS)}", file=sys.stderr)
        return 1
    files = [File(path) for path in names()]
    is_more = False
    for name, count in ROWS.items():
        found = sum(count(file) for file in files)
        is_more = is_more or found > budget[name]
        print(f"{found:7} of {budget[name]:7} {name}{': more than budget.txt allows' * (found > budget[name])}")
    print(f"{weight:>7} {WEIGHED}")
    return 1 if is_more else 0


if __name__ == "__main__":
    sys.exit(main())
