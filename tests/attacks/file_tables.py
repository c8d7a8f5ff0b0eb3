"""Shows that no program runs what somebody has put into a desk's file in the place of its
tables, or beside them."""
from __future__ import annotations

import contextlib
import itertools
import os
import sqlite3
import time

from nulvrader.file import opening
from tests.support import endless_pages, long_chains
from tests.support.attacked_file import Attack, ran
from tests.support.hostile_tables import BESIDE, INSTEAD, more


class NoTables(Attack):
    """Somebody makes views, triggers, virtual tables and rules in a desk's file that compute for
    ever."""

    def test_in_the_place_of_a_table(self) -> None:
        """They stand in the place of a desk's table, or on one: that is told, and they are not
        asked."""
        for what, statements in INSTEAD.items():
            with self.subTest(what):
                self.fill(statements)
                self.check_readers(what, '')

    def test_beside_the_tables(self) -> None:
        """They stand beside the desk's tables: those are read, and they are not."""
        for what, statements in BESIDE.items():
            with self.subTest(what):
                self.fill(statements)
                self.check_sentence(ran('why', '--db', self.db), what, (0, 1))
                told = ran('map', '--db', self.db)
                self.assertEqual((told.status, told.said), (0, ''), what)

    def test_pages_that_are_read_again_and_again(self) -> None:
        """A page of a table names one page below it many times, and that one another, so that a
        file of some pages has rows without an end."""
        self.fill()
        with contextlib.closing(sqlite3.connect(self.db)) as base:
            (page,) = base.execute(
                "SELECT rootpage FROM sqlite_master WHERE name = 'load'"
            ).fetchone()
            (size,) = base.execute('PRAGMA page_size').fetchone()
        data = bytearray(self.read(self.db))
        leaf = data[(page - 1) * size : page * size]
        first = len(data) // size + 1
        for number in range(12):
            below = first + number + 1
            cell = below.to_bytes(4, 'big') + b'\1'
            cells, start = 60, size - 60 * 5
            head = (
                b'\5\0\0'
                + cells.to_bytes(2, 'big')
                + start.to_bytes(2, 'big')
                + b'\0'
                + below.to_bytes(4, 'big')
            )
            pointers = b''.join((start + 5 * at).to_bytes(2, 'big') for at in range(cells))
            data += (head + pointers).ljust(start, b'\0') + cell * cells
        data += leaf
        data[(page - 1) * size : page * size] = data[(first - 1) * size : first * size]
        data[28:32] = (len(data) // size).to_bytes(4, 'big')
        with open(self.db, 'wb') as file:
            file.write(data)
        self.check_readers('pages')

    def test_a_list_of_tables_without_an_end(self) -> None:
        """The pages of the list of tables are such ones, in a file that says that it has 4 GiB, of
        which one MB is on the disk: no program works as long as for 4 GiB."""
        endless_pages.make(self.db, 4 << 30)
        self.assertLess(512 * os.stat(self.db).st_blocks, 2 << 20)
        self.check_readers('the list of tables', 'more steps')

    def test_a_long_text_of_many_rows(self) -> None:
        """Each row of the list of tables has the same text of three megabytes, in a file that has
        twice as much: no program reads it more often than for some seconds."""
        long_chains.make(self.db, 40_000)
        self.assertLess(os.path.getsize(self.db), 7 << 20)
        for words in (('why', '--db', self.db), ('map', '--db', self.db)):
            told = ran(*words)
            self.check_sentence(told, words)
            self.assertIn('more time', told.text)

    def test_more_rows_than_a_desk_has(self) -> None:
        """A table has many more rows than README.md allows: they are not all read into memory or
        drawn."""
        self.fill(
            'WITH more (n) AS (VALUES (1) UNION ALL SELECT n + 1 FROM more WHERE n < 300000) '
            'INSERT INTO node SELECT \'M\' || n FROM more'
        )
        for words in self.readers():
            if words[0] != 'backup':
                told = ran(*words)
                self.check_sentence(told, words)
                self.assertIn('the table node has more than', told.text)

    def test_long_texts(self) -> None:
        """Loads have names of 9 MB, which SQLite reads, and which take four bytes a character in
        memory; or views are written so. Only one of them is read."""
        for what, statements in (
            (
                'names',
                more(10) + "INSERT INTO load SELECT n || '😀' || CAST(zeroblob(9000000) AS TEXT), "
                "'checking', NULL, NULL, NULL FROM more",
            ),
            (
                'names within a page',
                'PRAGMA journal_mode = DELETE; PRAGMA page_size = 65536; VACUUM; '
                + more(1500)
                + "INSERT INTO load SELECT n || '😀' || hex(zeroblob(30000)), "
                "'checking', NULL, NULL, NULL FROM more",
            ),
            (
                'views',
                'PRAGMA writable_schema = ON; '
                + more(30)
                + "INSERT INTO sqlite_master SELECT 'view', 'v' || n, "
                "'v' || n, 0, 'CREATE VIEW v' || n || ' AS SELECT 1 /*😀' "
                "|| hex(zeroblob(1500000)) || '*/' FROM more",
            ),
        ):
            with self.subTest(what):
                self.fill(statements)
                for words in self.readers():
                    if words[0] != 'backup':
                        self.check_sentence(ran(*words), (what, words[0]), (0, 1, 2, 3))

    def test_behind_the_statement_of_a_table(self) -> None:
        """SQLite reads the first statement of a text in its list of tables, so behind that stands
        what it likes: a million quotes of a kind, or beginnings of comments, without an end."""
        for sign in ('[', "''", '"', '`', '/*', '-', '[]', "''x"):
            with self.subTest(sign):
                text = f"replace(hex(zeroblob({500_000 // len(sign)})), '0', '{sign}')"
                self.fill(
                    'PRAGMA writable_schema = ON; UPDATE sqlite_master'
                    f" SET sql = sql || ' ;' || {text} WHERE name = 'load'"
                )
                for words in self.readers():
                    self.check_sentence(ran(*words), (sign, words[0]), (0, 1, 2, 3))

    def test_many_rows_that_break_rules(self) -> None:
        """Each of 100,000 loads breaks three rules: the first are told, and the others counted, not
        kept."""
        self.fill(more(100_000) + "INSERT INTO load SELECT '?' || n, '?', '?', '?', NULL FROM more")
        told = ran('why', '--db', self.db)
        self.check_sentence(told, 'loads')
        self.assertLess(told.memory, 110_000_000)
        self.assertIn('    and 99990 more\n', told.text)

    def test_rows_that_do_not_fit_together(self) -> None:
        """Rows name nodes and stations that are not there, or have texts that are no names: nothing
        ends with a traceback."""
        for statement in (
            "UPDATE edge SET finish = 'Z'",
            "UPDATE station SET node = 'Z'",
            "UPDATE vehicle SET node = 'Z'",
            'DELETE FROM capacity',
            'DELETE FROM node',
            "UPDATE load SET id = x'1b5d' || id WHERE rowid = 1",
            "UPDATE station SET id = '<script>' WHERE rowid = 1",
            'DELETE FROM meta',
            'INSERT INTO meta VALUES (7, 7)',
        ):
            with self.subTest(statement):
                self.fill(statement)
                for words in self.readers():
                    if words[0] not in ('backup', 'check-count'):
                        self.check_sentence(ran(*words), (statement, words[0]))

    def test_a_table_with_many_rules(self) -> None:
        """The text of a table has 8000 UNIQUE: SQLite compares each one with each other before it
        counts a step, so the text is not read at all."""
        names = [f'c{number}' for number in range(150)]
        pairs = itertools.islice(itertools.combinations(names, 2), 8000)
        rules = ', '.join(f'UNIQUE ({one}, {other})' for one, other in pairs)
        self.fill()
        with contextlib.closing(sqlite3.connect(self.db)) as base:
            base.execute('PRAGMA writable_schema = ON')
            text = f'CREATE TABLE used ({", ".join(names)}, {rules})'
            base.execute("UPDATE sqlite_master SET sql = ? WHERE name = 'used'", (text,))
            base.commit()
        begun = time.process_time()
        with self.assertRaises(sqlite3.DatabaseError) as raised:
            with opening.opened(self.db):
                pass
        self.assertLess(time.process_time() - begun, 1)
        self.assertIn('more than 20000 bytes', opening.why_unread(raised.exception))
        self.check_readers('rules')
