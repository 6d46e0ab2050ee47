"""The commands of this folder, a module for each: `tests/NAME` starts it."""
