"""Tests of the programs beside a desk's file: copies, restores, the follower, prices, mails and starts."""
