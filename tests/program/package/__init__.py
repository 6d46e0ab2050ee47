"""Tests of the package, and of the checks of the repository."""
