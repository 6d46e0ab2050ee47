"""The command line of desk-renew."""

import argparse

from onixdesk_shop.ends import parser_of
from onixdesk_shop.machine import Machine
from onixdesk_shop.renewals.renewing import Renewing
from onixdesk_shop.restores.command_line import PATHS, put
from onixdesk_shop.restores.placing import Work

DESCRIPTION = """\
Replaces the desk by one without the messages that were applied: its series begin with the numbers that their
catalogues need before the next one. It says first what is given up, and asks. The old files stay beside the desk. If no
line says that the new desk is in place, the old one is. After a kill, run the same command again."""


def command_line() -> argparse.ArgumentParser:
    parser = parser_of("desk-renew", DESCRIPTION, **PATHS)
    parser.add_argument("--yes", action="store_true", help="asks nothing")
    parser.set_defaults(text=None, refuse=None, gaps=False, goes_on=True)
    return parser


def work(machine: Machine, options: argparse.Namespace) -> int:
    options.copy = Work(machine, options.db).folder / "copy"
    return put(machine, Renewing(machine, options), options.yes)
