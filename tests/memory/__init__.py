"""Refuses memory to the tests of the libraries, one request in each run."""
