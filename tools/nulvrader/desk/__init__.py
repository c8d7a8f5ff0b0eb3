"""The desk's client: its calls, what it refuses, and the messages and reports that it writes."""
