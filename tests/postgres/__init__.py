"""The tables and functions in PostgreSQL that bin/desk-follow keeps, on a cluster of the tests' own."""
