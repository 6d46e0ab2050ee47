"""Tests of the desk: batches, the port and the socket, files, what is listed of a desk."""
