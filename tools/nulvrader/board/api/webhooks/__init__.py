"""Webhooks: a program of its own that follows the events of a board and posts them to receivers, so
that the board needs no network, and who is sent to reaches no desk.

`config` reads who wants what, `source` asks the board, `ledger` keeps how far each receiver is,
`delivery` signs, `receiver` posts, `sender` does it in turn, and `cli` starts all."""
