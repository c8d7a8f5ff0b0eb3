"""A dispatcher beside the desk: it gives jobs to vehicles and releases their way."""
