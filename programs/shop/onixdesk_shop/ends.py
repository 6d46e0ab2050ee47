"""How a program ends: with its status, and with a reason if it failed."""

import argparse
import os
import shutil
import signal
import sys
import traceback
from collections.abc import Callable
from datetime import date
from pathlib import Path

from onixdesk_shop.faults import DONE, FAULT, Fault
from onixdesk_shop.lines import ERROR, token
from onixdesk_shop.machine import Machine

STATUSES = """\
Status 0; 1 if the answer is no, or a line of priority error was written; 2 if the command line or a file of settings is
wrong; 3 if a file, the desk or another program fails. The documents of the package have the rest."""


def parser_of(program: str, description: str, /, **paths: Path | None) -> argparse.ArgumentParser:
    """A parser with an option for each path. Its help keeps the line breaks of its texts; options cannot be
    abbreviated."""
    parser = argparse.ArgumentParser(
        program,
        description=description,
        epilog=STATUSES,
        formatter_class=argparse.RawDescriptionHelpFormatter,
        allow_abbrev=False,
    )
    for name, path in paths.items():
        parser.add_argument(f"--{name}", metavar="PATH", type=Path, default=path, help=f"{path or 'none'} without it")
    parser.set_defaults(goes_on=False)
    return parser


def day_word(word: str) -> str:
    """A day on a command line, as the desk writes it."""
    try:
        return date.fromisoformat(word).isoformat().replace("-", "")
    except ValueError:
        raise argparse.ArgumentTypeError(f"{token(word)} is not a day YYYYMMDD") from None


def program_of(word: Path) -> Path:
    """A program of that name or path."""
    found = shutil.which(word)
    if not found:
        raise Fault(f"{word}: there is no such program")
    return Path(found).absolute()


def call(parser: argparse.ArgumentParser, work: Callable[[Machine, argparse.Namespace], int]) -> int:
    """Does a program's work on this machine, by its command line, and returns the status. If it `goes_on`, it ignores a
    terminal that hangs up."""
    options = parser.parse_args()
    os.umask(0o077)
    for number in (signal.SIGINT, signal.SIGTERM, signal.SIGHUP):
        signal.signal(number, lambda number, _: sys.exit(128 + number))
    if options.goes_on:
        signal.signal(signal.SIGHUP, signal.SIG_IGN)
    machine = Machine(parser.prog)
    status = status_of(machine, lambda machine: work(machine, options))
    return status or (FAULT if machine.is_output_broken else DONE)


def status_of(machine: Machine, work: Callable[[Machine], int]) -> int:
    """Reports what ended the work: a fault in a line, a bug of the program with its traceback."""
    try:
        return work(machine)
    except Fault as fault:
        machine.tell(ERROR, str(fault))
        return fault.status
    except OSError as error:
        machine.tell(ERROR, f"{error.filename or 'the system'}: {error.strerror or error}")
        return FAULT
    except Exception:
        for line in traceback.format_exc().splitlines():
            machine.tell(ERROR, line)
        return FAULT
