"""The shop's package, run in one process over a desk, a program and a machine of the tests."""
