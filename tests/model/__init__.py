"""The rules of the desk once more, in plain Python over the SQLite of C: all calls of the table,
over the tables of docs/TABLES.md, each call one transaction. The checks of a call stand in the
order of docs/CALLS.md. It proves nothing: tests and measurements compare the program with it, the
soak sends traffic by it, and the rules that its rows keep are those of
`tools/nulvrader/file/rules.py`.

`tables.py` is what it keeps, `bodies.py` what a request says; `loads.py`, `orders.py`, `states.py`
and `answers.py` have the calls, `desk.py` the table of calls and the bytes of an answer."""
