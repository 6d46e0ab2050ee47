"""The shop's precedence table (docs/FORMATS.md), and a copy of it for the page: `write-rules RULES FOLDER`."""

import argparse
import json
import tomllib
from pathlib import Path
from typing import Any

from onixdesk_shop.ends import parser_of
from onixdesk_shop.faults import DONE, BadCall
from onixdesk_shop.machine import Machine


def command_line() -> argparse.ArgumentParser:
    parser = parser_of("write-rules", "Writes the rules of a desk that starts for the page, as FOLDER/rules.json.")
    parser.add_argument("rules", metavar="RULES", type=Path)
    parser.add_argument("folder", metavar="FOLDER", type=Path)
    return parser


def rules_of(text: bytes) -> list[dict[str, Any]]:
    """The rules of a table that the desk takes."""
    try:
        return list(tomllib.loads(text.decode("utf-8-sig")).get("rule", []))
    except ValueError as error:
        raise BadCall(f"the rules are not TOML 1.0: {error}") from None


def work(machine: Machine, options: argparse.Namespace) -> int:
    found = rules_of(machine.read(options.rules)) if machine.exists(options.rules) else []
    text = json.dumps({"version": 1, "at": int(machine.now()), "rules": found}, default=str)
    machine.write_whole(options.folder / "rules.json", f"{text}\n".encode())
    return DONE
