"""The units of systemd that belong to this desk."""

import re

from onixdesk_shop.faults import BadEnd
from onixdesk_shop.lines import ERROR
from onixdesk_shop.machine import Machine

DESK = "onixdesk.service"
STATES = "--state=active,activating,reloading,deactivating,failed"

# A shop's own unit with such a name, as of a second desk, is left alone.
OTHERS = "copy|fetch@.*|follow|inbox@.*|mail|prices"
is_own = re.compile(rf"onixdesk(?:-(?:{OTHERS}))?\.(?:path|service|timer)").fullmatch

# These units start others by themselves.
BEGIN = (".timer", ".path")


def is_begun(unit: str) -> bool:
    """Whether a unit is started again after it was stopped."""
    return bool(is_own(unit)) and (unit == DESK or unit.endswith(BEGIN))


class Units:
    """The units that run or have failed; none without systemd."""

    def __init__(self, machine: Machine) -> None:
        self.machine = machine
        try:
            lines = self.systemctl("list-units", "--plain", "--no-legend", STATES, "onixdesk*").splitlines()
        except BadEnd:
            lines = []
        self.all = [unit for unit in (line.split()[0] for line in lines if line.strip()) if is_own(unit)]

    def systemctl(self, *words: str) -> str:
        return self.machine.run(["systemctl", *words]).output.decode()

    @property
    def begun(self) -> list[str]:
        return [unit for unit in self.all if is_begun(unit)]

    def start(self, units: list[str]) -> bool:
        """Starts these, the desk first; returns whether all started, and reports the command of each that did not."""
        if DESK in units:
            units = [DESK, *(unit for unit in units if unit != DESK)]
        left = []
        for unit in units:
            try:
                if unit == DESK:
                    self.systemctl("reset-failed", unit)
                self.systemctl("start", unit)
            except BadEnd as error:
                self.machine.tell(ERROR, str(error))
                left.append(unit)
        if left:
            self.machine.tell(ERROR, f"systemctl start {' '.join(left)}; that does not run")
        return not left
