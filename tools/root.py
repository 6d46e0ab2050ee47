"""The top of the repository."""

from pathlib import Path

ROOT = Path(__file__).resolve().parent.parent

# The folders of the programs, where Python finds their packages.
PACKAGES = [str(folder) for folder in sorted(ROOT.glob("programs/*"))]
