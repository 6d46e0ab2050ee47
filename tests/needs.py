"""Which programs that tests call are installed: packages.txt names Debian's packages, each with a program of it."""

import os
import shutil
from collections.abc import Iterable
from pathlib import Path

from tools.root import ROOT

# Where Debian puts the packages of its own Python.
DEBIAN_PYTHON = "/usr/lib/python3/dist-packages"

# A daemon is not on every user's path.
PLACES = f"{os.environ.get('PATH', '')}:/usr/sbin"


def packages() -> dict[str, str]:
    """The package of each program, or of each file, if it is named by one."""
    lines = (ROOT / "packages.txt").read_text(encoding="utf-8").splitlines()
    return {found: package for package, found in (line.split() for line in lines if line and line[0] != "#")}


def is_here(program: str) -> bool:
    return Path(program).exists() if "/" in program else shutil.which(program, path=PLACES) is not None


def missing(programs: Iterable[str]) -> list[str]:
    """The packages of those of these programs that are missing."""
    of = packages()
    return [of[program] for program in programs if not is_here(program)]


def nothing_may_be_left_out() -> bool:
    """Whether tests that cannot run fail, as in CI."""
    return bool(os.environ.get("NOTHING_LEFT_OUT"))


# What whole commands of tests need.
NODE = ["node"]
PAGE = [
    "nginx",
    "openssl",
    "esbuild",
    "chromium",
    "chromium-headless-shell",
    "chromedriver",
    f"{DEBIAN_PYTHON}/selenium",
]
POSTGRES = ["/usr/lib/postgresql/15/bin/initdb", f"{DEBIAN_PYTHON}/psycopg2"]


def why(programs: Iterable[str]) -> str:
    """Why tests that need these programs are left out; empty if none is missing."""
    lacking = missing(programs)
    return f"needs Debian's {', '.join(lacking)}" if lacking else ""
