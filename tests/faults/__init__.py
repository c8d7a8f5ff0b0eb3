"""Tests of the program over a machine that fails: a full disk, little memory, a stop at any moment,
damaged files."""
