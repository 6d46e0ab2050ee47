"""Lines for the journal, mails and terminals. Text from others is one quoted token, cut."""

import shlex

ERROR, WARNING, NOTICE = 3, 4, 5

MOST_LETTERS = 60
MOST_TEXT = 300


def shown(text: str) -> str:
    """Escapes control characters and what is no character."""
    return "".join(letter if letter.isprintable() else ascii(letter)[1:-1] for letter in text)


def cut(text: str, most: int = MOST_TEXT) -> str:
    """A text from others, shown; if it is too long, its middle is left out."""
    text = shown(text)
    return text if len(text) <= most else f"{text[: most // 2]}..{text[-most // 2 :]}"


def token(name: str) -> str:
    """A name from others as one word of a shell, whatever is in it."""
    return shlex.quote(cut(name, MOST_LETTERS))


def ranges(numbers: list[int]) -> str:
    """Numbers in order, as ranges."""
    if len(numbers) == 1:
        return f"number {numbers[0]}"
    return f"{len(numbers)} numbers from {numbers[0]} to {numbers[-1]}"


def count(number: int, what: str) -> str:
    return f"{number} {what}" if number == 1 else f"{number} {what}s"
