"""Types for words of a command line and rows of a table, and a search in texts."""

import os
import re
from typing import Any, AnyStr, TypeAlias

Word: TypeAlias = str | os.PathLike[str]

# The query says of which types the values are.
Row: TypeAlias = tuple[Any, ...]


def sought(pattern: AnyStr, text: AnyStr) -> AnyStr:
    """The first group of a pattern's first match in a text, with ^ and $ for its lines; raises ValueError without a
    match."""
    found = re.search(pattern, text, re.MULTILINE)
    if not found:
        raise ValueError(f"{text!r} has nothing of {pattern!r}")
    return found[1]
