"""Tests of the program: what it answers, what its file has, and what its command line takes."""
