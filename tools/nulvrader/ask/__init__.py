"""The commands of `tools/ask`."""
