"""A desk that is killed amid a batch has the rows of its answered requests, or of one more."""

import subprocess
import time
from collections.abc import Iterator
from random import Random

from tests.program.databases import all_rows
from tests.program.messages import AGREEMENT, priced
from tests.program.room import SECONDS, Ran, Room
from tests.running import Outcome
from tools.words import Word

# The requests of a batch, and the batches for each killed run.
REQUESTS, BATCHES = 60, 8


def requests(random: Random, first: int) -> list[bytes]:
    """Messages out of order, some of them twice, and waivers; the answer to each is one line."""
    numbers = [*range(first, first + REQUESTS), *random.sample(range(first, first + REQUESTS), REQUESTS // 4)]
    random.shuffle(numbers)
    return [
        b"Waive,north,%d\n" % number if number % 9 == 0 else priced(number, f"R{number % 20}", str(number))
        for number in numbers
    ]


def given(room: Room, file: str, some: list[bytes]) -> Ran:
    return room.run("--db", file, "batch", given=b"".join(some))


def killed(room: Room, some: list[bytes], answered: int, seconds: float) -> int:
    """How many requests a run answered that was killed so many seconds after some answers."""
    room.write("requests", b"".join(some))
    with open(room.path("requests"), "rb") as text:
        words: list[Word] = [room.program, "--db", "killed.db", "batch"]
        run = subprocess.Popen(words, cwd=room.folder, stdin=text, stdout=subprocess.PIPE)
    assert run.stdout
    for _ in range(answered):
        run.stdout.readline()
    time.sleep(seconds)
    run.kill()
    # What was read ahead comes before what is in the pipe.
    output = run.stdout.read()
    run.wait(SECONDS)
    return answered + output.count(b"\n")


def at_some_moments(room: Room) -> Iterator[Outcome]:
    """After each kill the rest is answered as by a desk that nobody killed."""
    random = Random(41)
    for file in "killed.db", "whole.db":
        given(room, file, [AGREEMENT])
    for place in range(BATCHES):
        some = requests(random, 1 + place * REQUESTS)
        count = killed(room, some, random.randrange(len(some)), random.uniform(0, 0.02))
        given(room, "whole.db", some[:count])
        # The desk itself checks what the kill left.
        given(room, "killed.db", [])
        if all_rows(room, "killed.db") != all_rows(room, "whole.db"):
            given(room, "whole.db", some[count : count + 1])
            count += 1
        name = f"a kill: batch {place}"
        yield Outcome(f"{name}: the rows", all_rows(room, "killed.db") == all_rows(room, "whole.db"), True)
        wanted = given(room, "whole.db", some[count:])
        yield Outcome(f"{name}: the rest", given(room, "killed.db", some[count:]), wanted)
        yield Outcome(f"{name}: the rows then", all_rows(room, "killed.db") == all_rows(room, "whole.db"), True)
