"""Tests of the documents and their examples."""
