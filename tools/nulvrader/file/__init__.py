"""Reads the file of a desk that is stopped: its rows, the rules that they keep, and the reasons why
a desk doesn't start on it."""
