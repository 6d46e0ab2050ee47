"""What the repository uses of psycopg2, which has no types of its own. A row is of any values, as its query says."""

from typing import Any

from psycopg2.extensions import Diagnostics, connection

class Error(Exception):
    pgcode: str | None
    diag: Diagnostics

def connect(
    dsn: str = ..., *, application_name: str = ..., connection_factory: type[connection] = ..., **words: Any
) -> connection: ...
