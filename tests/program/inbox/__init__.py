"""Tests of onixdesk-inbox."""
