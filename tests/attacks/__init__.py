"""Attacks on the programs, one class or test each."""
