"""Checks in seconds that each edit that the prover must refuse can be applied to the sources.

`rt ci` calls one that cannot be a BAD EDIT, and goes on: it would test nothing from then on. This writes a line for
each, with status 1.
"""

import sys
from pathlib import Path
from typing import NamedTuple

from tools.root import ROOT

FOLDERS = ("must-fail", "mutants")


class BadEdit(Exception):
    """Why an edit cannot be applied."""


class Edit(NamedTuple):
    """The file of an edit, and the folder that its paths start from."""

    path: Path
    folder: Path

    def text(self) -> str:
        return self.path.read_text(encoding="utf-8")


def edits() -> list[Edit]:
    """The edits of all crates, those that the gate leaves out too."""
    of_crates = sorted(edit for folder in FOLDERS for edit in ROOT.glob(f"crates/*/{folder}/*.edit"))
    return [Edit(edit, edit.parents[1]) for edit in of_crates]


def applied(edit: str, folder: Path) -> dict[str, str]:
    """The texts that an edit makes, by file name in the folder; raises BadEdit if it cannot be applied. Each `old:`
    applies to what the pairs before it made of its file."""
    texts: dict[str, str] = {}
    path = old = ""
    pairs = 0
    for line in edit.splitlines():
        kind, _, text = line.partition(": ")
        if kind == "file":
            path = text.strip()
            if not (folder / path).is_file():
                raise BadEdit(f"there is no file {path}")
            texts.setdefault(path, (folder / path).read_text(encoding="utf-8"))
        elif kind == "old":
            old = text
        elif line.startswith("new:"):
            new = line.removeprefix("new:").removeprefix(" ")
            if not path or not old:
                raise BadEdit("a 'new:' line is behind no 'file:' or no 'old:'")
            if (count := texts[path].count(old)) != 1:
                raise BadEdit(f"an 'old:' text is {count} times in {path}")
            if old == new:
                raise BadEdit("an 'old:' and its 'new:' are the same")
            texts[path] = texts[path].replace(old, new)
            old = ""
            pairs += 1
    if not pairs:
        raise BadEdit("it has no 'old:' and 'new:'")
    return texts


def why_not(edit: str, folder: Path) -> str | None:
    """Why a text cannot be applied as an edit, or None."""
    try:
        applied(edit, folder)
    except BadEdit as bad:
        return str(bad)
    return None


def main() -> int:
    wrong = 0
    for edit in edits():
        if why := why_not(edit.text(), edit.folder):
            print(f"lint: {edit.path.relative_to(ROOT)}: {why}", file=sys.stderr)
            wrong += 1
    return 1 if wrong else 0


if __name__ == "__main__":
    sys.exit(main())
