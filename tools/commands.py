"""Writes docs/COMMANDS.md from each command's `--help`. PROGRAM is the program, by default that of `make try`.

    tools/python -m tools.commands [PROGRAM]
"""

import re
import subprocess
import sys
from pathlib import Path

from tools.root import ROOT

UNPROVED = ROOT / "crates/onixdesk/out/onixdesk.unproved"

BESIDE = ("onixdesk-inbox", "onixdesk-look", "desk-copy", "desk-restore", "desk-renew", "desk-prices", "desk-follow")


def help_of(program: Path | str, *words: str) -> str:
    return subprocess.run([program, *words], check=True, capture_output=True, text=True).stdout


def section(name: str, text: str) -> str:
    lines = "".join(f"    {line}".rstrip() + "\n" for line in text.strip().splitlines())
    return f"\n## {name}\n\n{lines}"


def page(program: Path | str) -> str:
    top = help_of(program, "--help")
    names = re.findall(r"^  ([a-z]+) ", top.partition("Commands:")[2].partition("Options:")[0], re.MULTILINE)
    sections = [section("onixdesk", top)]
    sections += [section(f"onixdesk {name}", help_of(program, "help", name)) for name in names if name != "help"]
    sections += [section(name, help_of(ROOT / "bin" / name, "--help")) for name in BESIDE]
    return "# Commands\n\n`make commands` writes this page, of what each one says of itself.\n" + "".join(sections)


if __name__ == "__main__":
    ROOT.joinpath("docs/COMMANDS.md").write_text(page(sys.argv[1] if sys.argv[1:] else UNPROVED), encoding="utf-8")
