"""docs/DEFINITIONS.md, from the comments in specs/; `make definitions` writes it."""

import re
from pathlib import Path

from tools.root import ROOT
from tools.specs.definitions import File, Name, crates, read_crate
from tools.specs.order import sections

PAGE = ROOT / "docs/DEFINITIONS.md"

PARAMETER = re.compile(r"(?<=\.) [A-Z]\w+: [^.]*\.?")

INTRODUCTION = """\
# Definitions

First the desk, in the order in which it is read: all that the answer to a request rests on, each definition in \
plain English and, below that, as it is written in `specs/`; then what price, calendar and choice mean, what a \
crash leaves, how a batch over a file ends, and what files mean. Behind these stands an index of all others that \
have a comment, crate by crate. `make definitions` makes this page.

A text is the list of its bytes, a record the list of its fields. A list of requests has its latest \
first: `r ∷ L` is L and then r. What gives a value or none says both what is read and what is refused.
"""


def remark(comment: str) -> str:
    """A comment as it stands behind a name and a colon.

    What it says of parameters, as in `Written: these bytes were written`, is for readers of the file,
    who see them."""
    comment = PARAMETER.sub("", comment)
    first = comment.split()[0]
    begins_sentence = first == "A" or first[1:].islower()
    said = comment[0].lower() + comment[1:] if begins_sentence else comment
    return said if said.endswith(".") else f"{said}."


def read_lines(files: list[File]) -> list[str]:
    """The page's part about the desk, section by section."""
    by_place = {(file.crate, file.name): file for file in files}
    lines = []
    for heading, names in sections().items():
        lines += [f"## {heading}", ""]
        for name in names:
            file = by_place[name.crate, name.file]
            comment = file.comments[name.word]
            formula = [f"      {line}" for line in file.formulas[name.word]]
            lines += [f"- `{name.word}`: {remark(comment)}" if comment else f"- `{name.word}`", "", *formula, ""]
    return lines


def index_lines(files: list[File], read: set[Name]) -> list[str]:
    """The index of a crate's definitions that have a comment and did not come before."""
    lines = []
    for file in files:
        remarks = [
            f"- `{word}`: {remark(comment)}"
            for word, comment in file.comments.items()
            if comment and Name(file.crate, file.name, word) not in read
        ]
        if remarks:
            lines += [f"**{file.name}** (crates/{file.crate}/specs/{file.name}.antt). {file.about}", "", *remarks, ""]
    return lines


def text(root: Path = ROOT) -> str:
    """The whole page."""
    of_crates = {name: read_crate(root / "crates" / name) for name in crates(root)}
    read = {name for names in sections().values() for name in names}
    lines = read_lines([file for files in of_crates.values() for file in files])
    for name, files in of_crates.items():
        if told := index_lines(files, read):
            lines += [f"## {name}", "", *told]
    return "\n".join([INTRODUCTION, *lines[:-1], ""])


if __name__ == "__main__":
    PAGE.write_text(text(), encoding="utf-8")
