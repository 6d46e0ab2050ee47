"""Figures of the program `onixdesk`, from whole runs: beside other programs that do the same work on the same bytes,
and of a desk that grows."""
