"""The command line of desk-restore."""

import argparse
from pathlib import Path

from onixdesk_shop.ends import parser_of
from onixdesk_shop.faults import DONE, FAILED, Failed, Fault
from onixdesk_shop.inbox.ledger import is_lost
from onixdesk_shop.lines import ERROR, WARNING
from onixdesk_shop.machine import Machine
from onixdesk_shop.places import DESK_FILE, INBOX_SETTINGS, LEDGER, PROGRAM
from onixdesk_shop.restores.inboxes import inboxes_in, wait_for_all
from onixdesk_shop.restores.restoring import Restore
from onixdesk_shop.units import DESK, Units

PATHS = {"db": DESK_FILE, "settings": INBOX_SETTINGS, "program": PROGRAM}

DESCRIPTION = """\
Replaces the desk by COPY, a folder that desk-copy made; the desk's own files get another name. It lists what the
inboxes, whose folder is beside the desk's, will post again, each file with the command that refuses it, and asks. Then
it stops the units of onixdesk that run, starts them again, and waits until everything is posted again. After a kill,
run the same command again."""


def command_line() -> argparse.ArgumentParser:
    parser = parser_of("desk-restore", DESCRIPTION, **PATHS)
    parser.set_defaults(goes_on=True)
    add = parser.add_argument
    add("--yes", action="store_true", help="asks nothing")
    add("--gaps", action="store_true", help="accepts a copy that lacks messages which no inbox can post again")
    add("--before-correction", action="store_true", help="accepts a copy from before a correction of the desk's text")
    add("--text", metavar="FILE", type=Path, help="puts a desk in place that is made from this corrected text of COPY")
    add("--said", metavar="TEXT", default="what was refused is left out", help="what the list of corrections says")
    add("--refuse", metavar=("MARK", "SERIES"), nargs=2, help="has the inbox refuse this file once you answered yes")
    add("copy", metavar="COPY", type=Path, help="a folder with the two files of a desk, of the name of the desk's")
    return parser


def work(machine: Machine, options: argparse.Namespace) -> int:
    options.copy = options.copy.resolve()
    return put(machine, Restore(machine, options), options.yes)


def put(machine: Machine, run: Restore, is_told: bool) -> int:
    """Puts the desk of a run into place, or finishes what a killed run began; returns the status."""
    folder = run.options.db.parent
    with machine.lock(folder, waits=False) as is_alone:
        if not is_alone:
            raise Fault(f"{folder}: a desk is put into place there already")
        if run.work.end_killed(run.units):
            machine.tell(WARNING, "the desk of that run is in place; for another one run the command again")
            return status_of(machine, run)
        run.units = Units(machine)
        try:
            run.lay_out()
            if not run.is_wanted(is_told):
                raise Failed("nobody said yes, so the desk is as it was")
            run.replace()
        finally:
            # Whatever ends this, what ran runs again.
            run.work.finish(run.units)
        return status_of(machine, run)


def status_of(machine: Machine, run: Restore) -> int:
    """DONE once the desk answers, and has again what its inboxes post."""
    if DESK not in run.work.started:
        machine.tell(ERROR, f"systemctl start {DESK}; the desk did not run, and is not started")
        return FAILED
    inboxes = inboxes_in(machine, run.inboxes_folder, run.options.settings)
    has_all = run.work.is_started and wait_for_all(machine, inboxes, run.planned, run.work.started) and run.has_all
    for folder in machine.paths(run.inboxes_folder, "*/"):
        if is_lost(machine, folder):
            machine.tell(ERROR, f"desk-restore COPY (one that has it); {folder / LEDGER} is gone")
            has_all = False
    return DONE if has_all else FAILED
