"""A simulated plant: vehicles, gateways, people, and what is truly where. Python's standard library
and `tools/nulvrader`."""
