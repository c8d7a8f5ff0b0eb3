"""Tests of the board and of its page."""
