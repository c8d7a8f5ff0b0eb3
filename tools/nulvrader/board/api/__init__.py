"""What other programs ask of the board: the record by HTTP, its events as they come, metrics and
health.

`reading` reads `board.db` by connections of its own, which see only what is committed. `events` has
the events and `histories` what became of a job, a load, a vehicle and of alarms. `feed` notices new
events, and `streams` tells them to those who stay connected. `routes` answers requests; `watch`
follows what the board does, for `metrics` and `health`."""
