"""Tests of feeds: what `onixdesk convert` makes of them."""
