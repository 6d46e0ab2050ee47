"""Starts the shop's program by the name it is called by, such as `desk-copy`."""

import sys
from importlib import import_module
from pathlib import Path

MODULES = {
    "desk-copy": "copies.command_line",
    "desk-follow": "postgres.command_line",
    "desk-prices": "prices.command_line",
    "desk-renew": "renewals.command_line",
    "desk-restore": "restores.command_line",
    "onixdesk-inbox": "inbox.command_line",
    "onixdesk-look": "looks.command_line",
    "write-rules": "rules",
}

# The package lies beside this folder.
sys.path.insert(0, str(Path(__file__).resolve().parent.parent / "programs" / "shop"))


def main() -> None:
    ends, program = (import_module(f"onixdesk_shop.{name}") for name in ("ends", MODULES[Path(sys.argv[0]).name]))
    sys.exit(ends.call(program.command_line(), program.work))
