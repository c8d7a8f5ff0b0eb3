"""Shows that no program hangs at what is no regular file, crashes by changed bytes, or prints an
escape of a name."""
from __future__ import annotations

import itertools
import os
import random
import subprocess
import sys
import tempfile
import unittest
import xml.etree.ElementTree as ElementTree
from unittest import mock

from nulvrader.common.layouts import Station, of_parts
from nulvrader.drawing.svg import drawing
from nulvrader.drawing.warehouse import Warehouse
from tests.support.attacked_file import DESK, Attack, Ended, ran
from tests.support.hostile_tables import BESIDE, INSTEAD
from tests.support.programs import PATIENCE, ROOT

FUZZ = int(os.environ.get('FUZZ', '20'))  # damaged files of each kind
KINDS = ('a FIFO', 'a socket', 'a folder', 'a device', 'a link to a FIFO')


class NoRegularFile(Attack):
    """Somebody puts a FIFO, a socket, a folder or /dev/zero where a file is read."""

    def test_in_the_place_of_the_file(self) -> None:
        """It lies in the place of the desk's file: each program says so, and none waits."""
        for kind in KINDS:
            self.put(kind, self.db)
            self.check_readers(kind, 'folder' if kind == 'a folder' else 'regular file')
            self.clear(self.db)

    def test_for_the_program_itself(self) -> None:
        """It lies in the place of the file, or of its log, as `./desk` is called: it says so, or
        that the file is no desk's, before anything is built or waited for."""
        for end, kind in itertools.product(('', '-wal'), KINDS):
            self.write('warehouse.db', 'SQLite format 3\0')
            self.clear(self.db + end)
            self.put(kind, self.db + end)
            for command in ('report', 'migrate'):
                line = [os.path.join(ROOT, 'dev', 'desk-file'), command, '--db', self.db]
                done = subprocess.run(line, capture_output=True, text=True, timeout=PATIENCE)
                self.assertEqual(done.returncode, 1, (end, kind))
                self.assertRegex(done.stderr, r"not a desk's file|without a desk's tables")
            self.clear(self.db + end)
            if end:
                self.clear(self.db)

    def test_beside_the_file(self) -> None:
        """It lies in the place of the journal, the log or its index: each program says so, and none
        waits."""
        self.fill()
        for end in ('-journal', '-wal', '-shm'):
            for kind in ('a FIFO', 'a device', 'a folder'):
                self.put(kind, self.db + end)
                self.check_readers((end, kind), f'warehouse.db{end}: it is {kind}')
                self.clear(self.db + end)

    def test_in_the_place_of_a_text(self) -> None:
        """It is named as a stocktake or a layout: each program says so, and none waits or reads on
        for ever."""
        for kind in KINDS:
            self.put(kind, self.path('text'))
            for words in (
                ('check-count', self.path('text')),
                ('check-layout', self.path('text')),
            ):
                told = ran(*words)
                self.check_sentence(told, (kind, words))
                self.assertIn('and not a regular file', told.text)
            self.clear(self.path('text'))

    def test_a_pipe_without_an_end(self) -> None:
        """A program writes without an end into the pipe that a person has named: it is read up to a
        limit. A pipe with an end is read."""
        for line, status, part in (
            (['yes'], 2, 'more than 1048576 bytes'),
            (['echo', 'station,load'], 0, 'accepts it'),
        ):
            with subprocess.Popen(
                line, stdout=subprocess.PIPE, stderr=subprocess.DEVNULL
            ) as writer:
                assert writer.stdout is not None
                told = ran('check-count', '/dev/stdin', stdin=writer.stdout)
                writer.stdout.close()
            self.assertEqual(told.status, status, told.text)
            self.assertIn(part, told.text)

    def test_a_size_of_a_terabyte(self) -> None:
        """A file, its log or a text has a terabyte of nothing: nothing of it is copied or read into
        memory."""
        self.fill()
        self.write('text', 'station,load\n')
        for path in (self.path('text'), self.db + '-wal', self.db):
            try:
                with open(path, 'ab') as file:
                    file.truncate(1 << 40)
            except OSError as error:
                self.skipTest(f'no file of a terabyte can be made here: {error}')
        self.check_sentence(ran('check-count', self.path('text')), 'text')
        for path in (self.db, self.db + '-wal'):
            self.check_readers(path, f'{path}: it has 1099511627776 bytes')
            self.fill()
            if path == self.db:
                with open(self.db + '-wal', 'ab') as file:
                    file.truncate(1 << 40)


class Fuzz(Attack):
    """Files are changed at random."""

    def test_damaged_files(self) -> None:
        """Bytes and pages of files with and without a hostile schema are changed: each program ends
        with a status and a sentence, or a picture."""
        for what, statements in {'a desk': '', **INSTEAD, **BESIDE}.items():
            self.fill(statements)
            data = self.read(self.db)
            for number in range(FUZZ if what == 'a desk' else max(1, FUZZ // 10)):
                with open(self.db, 'wb') as file:
                    file.write(changed(data, random.Random(f'{what} {number}')))
                for words in self.readers():
                    if words[0] in ('why', 'map', 'check-count'):
                        self.check_sentence(ran(*words), (what, number, words[0]), (0, 1, 2, 3))


def changed(data: bytes, chance: random.Random) -> bytes:
    """Bytes with some changes, most of them in the head and in the list of tables."""
    found = bytearray(data)
    for _ in range(chance.choice((1, 1, 2, 5, 20))):
        at = chance.randrange(chance.choice((100, 4096, len(found))))
        at = min(at, len(found) - 1)
        kind = chance.randrange(5)
        if kind == 0:
            found[at] ^= 1 << chance.randrange(8)
        elif kind == 1:
            found[at : at + 4] = chance.choice(
                (b'\xff' * 4, b'\0' * 4, b'\x7f\xff\xff\xff', b'\0\0\0\2')
            )
        elif kind == 2:
            found[at : at + 16] = chance.randbytes(len(found[at : at + 16]))
        elif kind == 3:
            one, other = at // 512 * 512, chance.randrange(len(found)) // 512 * 512
            found[one : one + 512] = found[other : other + 512]
        else:
            del found[max(at, 512) // 512 * 512 + chance.randrange(512) :]
    return bytes(found)


ESCAPE = '\x1b]0;owned\x07\x1b[2J\nwhy: nothing keeps a desk from starting.\r\u202e\x9b1m'


class Texts(Attack):
    """Somebody chooses names by which root's terminal would do something."""

    def check_why(self, *words: str) -> Ended:
        """What is told is shown, and no line is one of its own."""
        told = ran('why', '--db', self.db, *words)
        self.check_sentence(told, words)
        self.assertNotIn('why: nothing keeps a desk from starting.', told.out.splitlines())
        self.assertIn('\\x1b]0;owned', told.out)
        return told

    def test_the_words_of_a_program(self) -> None:
        """A program with escapes in its words has the file open."""
        self.fill()
        code = 'import sys, time; file = open(sys.argv[1]); print(flush=True); time.sleep(600)'
        line = [sys.executable, '-c', code, self.db, ESCAPE * 3]
        with subprocess.Popen(line, stdout=subprocess.PIPE) as process:
            try:
                assert process.stdout is not None
                process.stdout.readline()
                self.check_why()
            finally:
                process.kill()

    def test_names_in_a_file(self) -> None:
        """Tables, views, indexes, triggers and rows have names with escapes."""
        name = ESCAPE.replace('"', '')
        for statement in (
            f'CREATE UNIQUE INDEX "{name}" ON job (load, phase, id)',
            f'CREATE TRIGGER "{name}" AFTER INSERT ON load BEGIN SELECT 1; END',
            f'CREATE TABLE "{name}" (a TEXT REFERENCES load (id))',
            f'CREATE VIRTUAL TABLE "{name}" USING fts5(a)',
            f'ALTER TABLE used ADD COLUMN "{name}" TEXT',
            f"UPDATE load SET id = '{name}' WHERE rowid = 1",
            f"UPDATE vehicle SET reported = '{name}'",
        ):
            with self.subTest(statement):
                self.fill(statement)
                self.check_why()
                self.check_sentence(ran('map', '--db', self.db), statement, (0, 1))

    def test_the_name_of_the_file(self) -> None:
        """The file and its folder have names with escapes."""
        self.folder = self.path(ESCAPE.replace('/', ''))
        os.mkdir(self.folder)
        self.write('count.csv', 'station,load\n')
        self.db = self.path(ESCAPE.replace('/', ''))
        os.mkfifo(self.db)
        self.check_readers('name', '\\x1b]0;owned')

    @unittest.skipIf(
        os.path.isdir('/run/systemd/system'), 'it would stop the units of this machine'
    )
    def test_the_name_of_a_copy(self) -> None:
        """A copy that root puts back has a name with escapes."""
        self.fill()
        copy = self.path(ESCAPE.replace('/', ''))
        os.link(self.db, copy)
        with tempfile.TemporaryFile() as answers:
            answers.write(b'yes\n' * 4)
            answers.seek(0)
            with mock.patch.dict(os.environ, NULVRADER_DB=self.path('put-back.db')):
                told = ran('restore', copy, '--program', DESK, stdin=answers)
        self.check_sentence(told, 'a copy')
        self.assertIn('put-back.db is ', told.out)

    def test_a_picture(self) -> None:
        """Names of loads and stations have markup, and characters that XML forbids: the picture is
        XML with nothing of it but texts."""
        name = '<script>alert(1)</script>"\'&' + ESCAPE + '\udcff\ufffe\x00'
        layout = of_parts(['N1'], [], [Station(name, 'N1', 2)])
        picture = drawing(
            Warehouse(layout, {name: 'N1'}, {}, {name: f'station {name}', 'L': 'checking'})
        )
        root = ElementTree.fromstring(picture.encode())
        self.assertEqual([one for one in root.iter() if 'script' in one.tag], [])
        self.assertEqual([sign for sign in picture if sign != '\n' and not sign.isprintable()], [])
