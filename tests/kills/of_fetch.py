"""fetch.sh, which moves files from a server of OpenSSH, killed with its children."""

import os
import shutil
from collections.abc import Iterator, Mapping, Sequence

from tests.kills.scenarios import Scenario, run_again
from tests.program.inbox.fetching import SCRIPT, Fetch, sftp
from tests.program.inbox.inboxes import script
from tests.program.room import Ran, Room
from tests.running import Outcome
from tools.words import Word

NAMES = {"a.xml": "one" * 9000, "b c.xml": "two", "waits.xml": "new"}
WAITS = "old"


class OfFetch(Scenario):
    """A file that waits in the folder has the name of one that comes."""

    def __init__(self, room: Room) -> None:
        super().__init__(room)
        self.fetch = Fetch(room, VERB="move")
        self.server = sftp(self.fetch)
        self.fetch.configure(**self.server.__enter__(), known_hosts_file=room.path("known"))

    def prepare(self) -> None:
        for folder in (self.fetch.files, self.fetch.incoming, self.fetch.state):
            shutil.rmtree(folder)
            folder.mkdir()
        self.fetch.files.chmod(0o755)
        for name, text in NAMES.items():
            self.fetch.offer(name, text)
        self.fetch.incoming.joinpath("waits.xml").write_text(WAITS)

    def words(self) -> Sequence[Word]:
        return [SCRIPT, "north", self.fetch.incoming]

    def environment(self) -> Mapping[str, str]:
        return self.fetch.environment

    def wrong_then(self) -> Iterator[str]:
        """Nothing is lost, and what an inbox would take is complete."""
        texts = {*NAMES.values(), WAITS}
        shown = [path for path in self.fetch.incoming.iterdir() if not path.name.startswith(".")]
        yield from (f"{path.name} is not whole" for path in shown if path.read_text() not in texts)
        whole = self.fetch.state / "whole"
        kept = [*shown, *self.fetch.files.iterdir(), *(whole.iterdir() if whole.exists() else ())]
        if lost := texts - {path.read_text() for path in kept}:
            yield f"lost are {[text[:3] for text in lost]}"

    def wrong_at_end(self) -> Iterator[str]:
        if (ran := run_again(self.room, self.words(), self.environment())) != Ran(0):
            yield f"{ran}"
        if left := os.listdir(self.fetch.files):
            yield f"on the server is {left}"
        came = sorted(self.fetch.came().values())
        if came != sorted([*NAMES.values(), WAITS]):
            yield f"there came {[text[:3] for text in came]}"

    def close(self) -> None:
        self.server.__exit__(None, None, None)


def disk_that_takes_nothing(room: Room) -> Iterator[Outcome]:
    """Files that are not synced are neither removed from the server nor shown to the inbox."""
    scenario = OfFetch(room)
    room.path("bin").mkdir()
    environment = {**scenario.environment(), "PATH": f"{room.path('bin')}:{os.environ['PATH']}"}
    try:
        for word, left in ("--file-system", sorted(NAMES)), ("--", []):
            scenario.prepare()
            script(room, "bin/sync", f'[ "$1" != {word} ] || exit 1; exec /usr/bin/sync "$@"')
            ran = run_again(room, scenario.words(), environment)
            shown = [path.name for path in scenario.fetch.incoming.iterdir() if not path.name.startswith(".")]
            found = ran.status, sorted(os.listdir(scenario.fetch.files)), shown
            yield Outcome(f"fetch: sync {word} fails", found, (1, left, ["waits.xml"]))
            yield Outcome(f"fetch: behind a sync {word} that failed", [*scenario.wrong_at_end()], [])
    finally:
        scenario.close()
