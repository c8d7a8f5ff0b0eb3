"""Administers an installed desk: its configuration, its units, and the making, copying, migrating
and putting back of its file."""
