"""What somebody may put into a file of SQLite in the place of its tables, or beside them."""
from __future__ import annotations

# What never ends, or not in a lifetime: rows without an end, and views that are twice the one
# before.
ENDLESS = (
    'WITH more (n) AS (VALUES (1) UNION ALL SELECT n + 1 FROM more) SELECT max(n), 2 FROM more'
)
DOUBLES = 'CREATE VIEW v0 AS SELECT 1 AS a; ' + ' '.join(
    f'CREATE VIEW v{n} AS SELECT x.a FROM v{n - 1} AS x, v{n - 1} AS y;' for n in range(1, 40)
)
SHORT, LONG = 'abs(1) = 1', "instr(hex(zeroblob(400000)), hex(zeroblob(200000)) || 'x') = 0"
META = 'ALTER TABLE meta RENAME TO was; '
USED = 'ALTER TABLE used RENAME TO was; '

# In the place of a table of the desk's.
INSTEAD = {
    'a view without an end': META + f'CREATE VIEW meta (id, schema) AS {ENDLESS}',
    'views of views': META + DOUBLES + 'CREATE VIEW meta (id, schema) AS SELECT a, 2 FROM v39',
    'a view with the right rows': META + 'CREATE VIEW meta AS SELECT * FROM was',
    'a view of all tables': (
        'ALTER TABLE load RENAME TO was; CREATE VIEW load AS SELECT was.* FROM was, was AS x, was'
        ' AS y'
    ),
    'a virtual table': META + 'CREATE VIRTUAL TABLE meta USING fts5(id, schema)',
    'a generated column': (
        USED + f'CREATE TABLE used (kind TEXT, id TEXT AS ({SHORT}), PRIMARY KEY (kind)) STRICT'
    ),
    'a CHECK': (
        USED
        + f'CREATE TABLE used (kind TEXT, id TEXT CHECK ({SHORT}), PRIMARY KEY (kind, id)) STRICT; '
        'INSERT INTO used VALUES (\'ref\', \'R1\')'
    ),
    'a CHECK behind a byte order mark': (
        USED
        + f'CREATE TABLE used (kind TEXT, id TEXT CHECK \ufeff({SHORT}), PRIMARY KEY (kind, id))'
        ' STRICT; INSERT INTO used VALUES (\'ref\', \'R1\')'
    ),
    'a trigger': (
        f"CREATE TRIGGER mine AFTER INSERT ON load WHEN EXISTS ({ENDLESS}) BEGIN SELECT 1; END"
    ),
    'an index on an expression': f'CREATE INDEX mine ON load ({SHORT})',
    'an index with WHERE': f'CREATE INDEX mine ON load (id) WHERE {SHORT}',
    'a key of another order': (
        USED
        + 'CREATE TABLE used (kind TEXT, id TEXT COLLATE NOCASE, PRIMARY KEY (kind, id)) STRICT'
    ),
}

# Beside the tables of the desk's, which can be read.
BESIDE = {
    'views of views': DOUBLES,
    'a view without an end': f'CREATE VIEW mine AS {ENDLESS}',
    'a CHECK': f'CREATE TABLE mine (a CHECK ({SHORT})); INSERT INTO mine VALUES (1)',
    'a generated column': (
        f'CREATE TABLE mine (a, b NOT NULL AS ({SHORT}) VIRTUAL); INSERT INTO mine VALUES (1)'
    ),
}


def more(count: int) -> str:
    """The beginning of a statement that reads the numbers from 1 to this one from `more`."""
    return f'WITH more (n) AS (VALUES (1) UNION ALL SELECT n + 1 FROM more WHERE n < {count}) '
