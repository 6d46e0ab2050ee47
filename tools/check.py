"""Proves a crate over the libraries that a run of `rt ci` has proved, without waiting for other checks.

    tools/check [--from CLONE] CRATE [FLAG..]

`rt check` builds each library below the crate that no check in this clone has built, even if `rt ci` has, and waits
for other runs that build one of them. This takes those of CLONE (by default this clone) that were made from the same
files, and has the prover read the others as sources. FLAG.. are the prover's, such as `--only PATH` or
`--allow-holes`. The gate does not use what it proves.

The status is the prover's; 2 if there is no such crate.
"""

import argparse
import functools
import importlib
import os
import subprocess
import sys
from pathlib import Path
from typing import Any

from tools.root import ROOT


def toolchain() -> Any:
    """The module of the toolchain that knows how `rt` calls the prover."""
    page = subprocess.run(["rt", "doc"], stdout=subprocess.PIPE, text=True, check=True).stdout.strip()
    sys.path.append(str(Path(page).parent / "bin"))
    module = importlib.import_module("rtlib")
    # The stamp of a crate depends on those of all crates below it, and is asked for many times.
    module.Crate.stamp = functools.cache(module.Crate.stamp)
    return module


def take_libraries(crate: Any, others: dict[str, Any]) -> set[str]:
    """The built libraries below the crate, linked from the other clone if only that one has them."""
    built = set()
    for library in crate.below():
        other = others.get(library.name)
        if not library.is_built() and other and os.path.isdir(other.rlib) and other.stamp() == library.stamp():
            folder = Path(library.rlib).parent
            subprocess.run(["rm", "-rf", folder], check=True)
            folder.mkdir(parents=True)
            subprocess.run(["cp", "-al", other.rlib, library.rlib], check=True)
            folder.joinpath("stamp").write_text(library.stamp(), encoding="utf-8")
        if library.is_built():
            built.add(library.name)
    return built


def words_over(crate: Any, built: set[str], flags: list[str]) -> list[str]:
    """The prover's words for the crate, with these libraries as built ones and the others as sources."""
    below = {library.name: library for library in crate.below()}
    words = list(crate.words(["--jobs", "1", *flags], as_source=True, keeps=False))
    found: list[str] = []
    while words:
        word = words.pop(0)
        name = words[0].partition("=")[0].partition(":")[0] if word == "--lib" else ""
        if name not in built:
            found.append(word)
            continue
        words.pop(0)
        library = below[name].rlib
        found += ["--extern", f"{name}={library}", "-L", f"dependency={os.path.dirname(library)}"]
    return found


def main() -> int:
    parser = argparse.ArgumentParser(
        "tools/check", description=__doc__, formatter_class=argparse.RawDescriptionHelpFormatter
    )
    parser.add_argument("--from", dest="clone", metavar="CLONE", type=Path, default=ROOT)
    parser.add_argument("crate", metavar="CRATE")
    given, flags = parser.parse_known_args()
    folder = ROOT / "crates" / given.crate
    if not folder.is_dir():
        parser.error(f"no {folder}")
    rt = toolchain()
    crate = rt.Crate(str(folder), str(ROOT), {})
    known: dict[str, Any] = {}
    clone = given.clone.resolve()
    # The clone may lack the crate itself, if that is new.
    folders = {library.name: clone / "crates" / library.name for library in crate.below()}
    others = {name: rt.Crate(str(path), str(clone), known) for name, path in folders.items() if path.is_dir()}
    built = take_libraries(crate, others)
    sources = [library.name for library in crate.below() if library.name not in built]
    print(f"tools/check: {len(built)} libraries are built; as sources: {' '.join(sources) or 'none'}", file=sys.stderr)
    return subprocess.run([rt.RATTLE, "check", *words_over(crate, built, flags)], cwd=folder).returncode


if __name__ == "__main__":
    sys.exit(main())
