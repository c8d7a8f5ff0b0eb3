"""Tests of the programs of `tools/`, of the scripts that build the desk, and of the pages that tell
of them."""
