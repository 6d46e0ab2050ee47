"""What other tests need of a desk and its programs."""

from pathlib import Path

from tests.program.databases import DATABASE
from tests.program.room import Room

WORDS = ["--db", DATABASE]


def of_series(number: int, series: str = "north", **counts: int) -> str:
    """The reply to an applied message."""
    names = ["deleted", "ignored"], ["replaced"], ["unknown", "updated"]
    before, replaced, behind = (",".join(f'"{name}":{counts.get(name, 0)}' for name in each) for each in names)
    return f'200 {{"answer":"applied",{before},"number":{number},{replaced},"series":"{series}",{behind}}}'


def script(room: Room, name: str, text: str) -> Path:
    """A shell program that stands in for another one."""
    room.write(name, f"#!/bin/sh\n{text}\n".encode())
    room.path(name).chmod(0o755)
    return room.path(name)
