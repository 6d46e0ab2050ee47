"""What stops a program, with the exit status of each."""

DONE, FAILED, BAD_CALL, FAULT = 0, 1, 2, 3


class Fault(Exception):
    """The machine, the desk or a child failed."""

    status = FAULT


class Failed(Fault):
    """The request cannot be met."""

    status = FAILED


class BadCall(Fault):
    """The program does not accept these words or settings."""

    status = BAD_CALL


class BadEnd(Fault):
    """A child did not start, took too long, or ended with an unknown status."""
