"""The desk's definitions in reading order: order.txt lists them, below headings."""

import sys
from pathlib import Path

from tools.root import ROOT
from tools.specs.definitions import File, Name, crates, read_crate

ORDER = Path(__file__).with_name("order.txt")


def sections() -> dict[str, list[Name]]:
    """The names below each heading."""
    found: dict[str, list[Name]] = {}
    for line in ORDER.read_text(encoding="utf-8").splitlines():
        place, _, words = line.partition(": ")
        crate, _, file = place.partition("/")
        if line.startswith("# "):
            names = found.setdefault(line.removeprefix("# "), [])
        elif words:
            names += [Name(crate, file, word) for word in words.split()]
    return found


def origin(name: Name, files: dict[tuple[str, str], File]) -> Name | None:
    """Where a name is defined, which another file may re-export; None if these files do not define it."""
    file = files.get((name.crate, name.file))
    if file and name.word not in file.formulas:
        return next((origin(it, files) for it in file.handed_on if it.word == name.word), None)
    return name if file else None


def lacking(files: list[File]) -> list[str]:
    """Names in the order without a definition, and citations that it lacks."""
    by_place = {(file.crate, file.name): file for file in files}
    listed = [name for names in sections().values() for name in names]
    lost = [f"no definition {name.word} in {name.crate}/{name.file}" for name in listed if not origin(name, by_place)]
    for name in listed:
        file = by_place[name.crate, name.file]
        cited = {Name(file.crate, file.name, word) for word in file.own[name.word] & file.formulas.keys()}
        cited |= {found for it in file.cited[name.word] if (found := origin(it, by_place))}
        lost += [f"{name.word} cites {it.word} of {it.crate}/{it.file}" for it in sorted(cited - {*listed})]
    return lost


if __name__ == "__main__":
    said = lacking([file for name in crates(ROOT) for file in read_crate(ROOT / "crates" / name)])
    for line in said:
        print(f"tools/specs/order.txt: {line}")
    sys.exit(1 if said else 0)
