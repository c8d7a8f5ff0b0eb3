"""Tests of the dispatcher, and of the plant in which it is tried."""
