"""Builds the program, and makes files from the sources."""
