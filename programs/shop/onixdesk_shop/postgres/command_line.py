"""The command line of desk-follow."""

import argparse
import time
from pathlib import Path

from onixdesk_shop.copies.copying import copied
from onixdesk_shop.ends import parser_of, program_of
from onixdesk_shop.faults import DONE
from onixdesk_shop.machine import Machine
from onixdesk_shop.places import PROGRAM
from onixdesk_shop.postgres.following import call_of, check_version, script
from onixdesk_shop.rules import rules_of

DESCRIPTION = """\
Updates the tables of the schema desk in a PostgreSQL database from a running desk, in one transaction. The functions
desk.prices, desk.choice, desk.calendar and desk.gaps answer as the desk did at desk.moment; desk.choice uses the
precedence table of --rules. None of this is proved. It needs psql, from Debian's postgresql-client."""

DATABASE = "which database, in the words of libpq, as 'host=/run/postgresql dbname=shop'; else the user's own"


def command_line() -> argparse.ArgumentParser:
    parser = parser_of("desk-follow", DESCRIPTION, rules=None, program=PROGRAM)
    parser.add_argument("--database", metavar="WORDS", default="", help=DATABASE)
    parser.add_argument("file", metavar="FILE", type=Path, help="the database that the desk has open")
    return parser


def work(machine: Machine, options: argparse.Namespace) -> int:
    rules = []
    if options.rules:
        # The desk's own program checks them.
        machine.run([program_of(options.program), "rules", options.rules])
        rules = rules_of(machine.read(options.rules))
    with copied(machine, options.file) as (copy, taken), machine.reading(copy) as source:
        check_version(source)
        machine.run(call_of(options.database), text=script(source, rules, taken.moment))
    machine.write(time.strftime("as of %F %T UTC\n", time.gmtime(taken.moment // 1_000_000_000)))
    return DONE
