"""Measures the program and the gate. It may use `tools`, but not `tests`."""
