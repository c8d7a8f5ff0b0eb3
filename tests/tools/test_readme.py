"""Shows that the sessions with curl of README.md and docs/HTTP.md write what stands there, against
a desk on a new file, but for the port and the moments."""
import json
import os
import re
import shlex
import shutil
import socket
import sqlite3
import subprocess
import tempfile
import threading
import unittest
from typing import Any

from tests.support.programs import ROOT, matched
from tests.support.desks import DESK, Serving, over_sockets

PORT = '8080'
END = '-- the end of a block --'

# A moment, perhaps broken by a line's end.
MOMENT = re.compile(
    r'\n?'.join(r'\d' if sign == '0' else re.escape(sign) for sign in '0000-00-00T00:00:00.00Z')
)


def blocks_of(page: Any, title: Any) -> Any:
    """The fenced blocks of a section: each its language, as `sh` or nothing, and its text."""
    with open(os.path.join(ROOT, page)) as file:
        text = file.read()
    section = matched(fr'^## {re.escape(title)}\n(.*?)(?=^## |\Z)', text, re.S | re.M)[1]
    return re.findall(r'^```(\w*)\n(.*?)^```$', section, re.S | re.M)


def session_of(blocks: Any) -> Any:
    """Each block of commands with the answers that are shown under it."""
    found = []
    for at, (language, text) in enumerate(blocks):
        if language == 'sh':
            answers = blocks[at + 1]
            if answers[0] != '':
                raise AssertionError('no answers are shown under\n' + text)
            found.append((text, answers[1]))
    return found


def without_moments(text: str) -> Any:
    return MOMENT.sub('MOMENT', text)


def words_of_serving(blocks: Any) -> Any:
    """The words behind `./desk` of the section's line that starts the desk."""
    lines = [
        line
        for language, text in blocks
        if language == ''
        for line in text.splitlines()
        if line.startswith('./desk serve ')
    ]
    if len(lines) != 1:
        raise AssertionError(lines)
    return shlex.split(lines[0])[1:]


def front_of(data: bytes) -> Any:
    """The request at the front of these bytes, or nothing where it is not whole."""
    head, end, body = data.partition(b'\r\n\r\n')
    said = re.search(rb'^Content-Length: *([0-9]+)', head, re.I | re.M)
    length = int(said[1]) if said else 0
    return head + end + body[:length] if end and len(body) >= length else b''


def meaning_of(request: Any) -> Any:
    """The method, the path and the body of a request; a body of JSON as its value."""
    head, _, body = request.decode().partition('\r\n\r\n')
    try:
        body = json.loads(body)
    except ValueError:
        pass
    return *head.split(' ')[:2], body


class Relay:
    """Hands each request on to the desk, by a connection of its own, and keeps it."""

    def __init__(self, desk: Any) -> None:
        self.desk = desk
        self.seen: list[Any] = []

    def __enter__(self) -> Any:
        self.listener = socket.create_server(('127.0.0.1', 0))
        self.port = self.listener.getsockname()[1]
        self.thread = threading.Thread(target=self.run)
        self.thread.start()
        return self

    def run(self) -> None:
        while True:
            try:
                conn, _ = self.listener.accept()
            except OSError:
                return
            with conn, socket.create_connection(('127.0.0.1', self.desk)) as desk:
                data = b''
                while not front_of(data) and (more := conn.recv(65536)):
                    data += more
                self.seen.append(data)
                desk.sendall(data)
                desk.shutdown(socket.SHUT_WR)
                while more := desk.recv(65536):
                    conn.sendall(more)

    def __exit__(self, *_: str) -> None:
        self.listener.shutdown(socket.SHUT_RDWR)
        self.listener.close()
        self.thread.join()


@over_sockets
class Pages(unittest.TestCase):
    def check(self, page: Any, title: str) -> Any:
        """Runs a section's commands in one shell, and compares what each block writes."""
        self.assertIsNotNone(shutil.which('curl'), 'curl is needed here')
        blocks = blocks_of(page, title)
        words = words_of_serving(blocks)
        self.assertEqual(words[:2] + words[3:5], ['serve', '--db', '--port', PORT])
        session = session_of(blocks)
        with tempfile.TemporaryDirectory() as folder:
            db = os.path.join(folder, words[2])
            with Serving(db, words[6]) as desk:
                script = ''.join(f'{commands}\necho "{END}"\n' for commands, _ in session)
                self.assertIn(':' + PORT, script)
                done = subprocess.run(
                    ['sh', '-e', '-c', script.replace(':' + PORT, f':{desk.port}')],
                    capture_output=True,
                    text=True,
                    cwd=folder,
                    timeout=600,
                )
            self.assertEqual((done.returncode, done.stderr), (0, ''))
            told = done.stdout.split(END + '\n')
            self.assertEqual(told.pop(), '')
            self.assertEqual(len(told), len(session))
            for (commands, answers), found in zip(session, told):
                self.assertEqual(without_moments(found), without_moments(answers), commands)
            return self.questions(folder) if page == 'README.md' else None

    def questions(self, folder: str) -> int:
        """What README asks of the file once the desk is stopped; each line as `sqlite3` writes
        it."""
        ((commands, answers),) = session_of(blocks_of('README.md', 'What is in the file'))
        told = []
        for line in commands.splitlines():
            name, file, question = shlex.split(line)
            self.assertEqual((name, file), ('sqlite3', 'warehouse.db'))
            base = sqlite3.connect(os.path.join(folder, file))
            told += [
                '|'.join('' if cell is None else str(cell) for cell in row)
                for row in base.execute(question)
            ]
            base.close()
        self.assertEqual(told, answers.splitlines())
        return len(told)

    def test_readme(self) -> None:
        self.assertGreater(self.check('README.md', 'A session'), 0)

    def test_each_call(self) -> None:
        self.check('docs/HTTP.md', 'Each call by an example')

    def test_the_session_is_the_file(self) -> None:
        """What curl sends in the session of docs/HTTP.md are the requests of `examples/calls.http`,
        one after the other."""
        blocks = blocks_of('docs/HTTP.md', 'Each call by an example')
        words = words_of_serving(blocks)
        with (
            tempfile.TemporaryDirectory() as folder,
            Serving(os.path.join(folder, words[2]), words[6]) as desk,
        ):
            with Relay(desk.port) as relay:
                script = ''.join(commands for commands, _ in session_of(blocks))
                script = script.replace(':' + PORT, f':{relay.port}')
                subprocess.run(
                    ['sh', '-e', '-c', script],
                    capture_output=True,
                    cwd=folder,
                    timeout=600,
                    check=True,
                )
        with open(os.path.join(ROOT, 'examples', 'calls.http'), 'rb') as file:
            data = file.read()
        wanted = []
        while data:
            one = front_of(data)
            data = data[len(one) :]
            wanted.append(meaning_of(one))
        self.assertGreater(len(wanted), 22)
        self.assertEqual([meaning_of(one) for one in relay.seen], wanted)


class Statements(unittest.TestCase):
    def test_plans_are_kept(self) -> None:
        """The statements that serve have as many texts as docs/DECISIONS.md says, fewer than the
        plans that a connection keeps."""
        texts, folder = set(), os.path.join(ROOT, 'crates', 'agv_store_sql', 'src')
        for name in os.listdir(folder):
            with open(os.path.join(folder, name)) as file:
                code = re.sub('//.*', '', file.read())
            texts |= set(re.findall(r'"((?:INSERT|DELETE|UPDATE|SELECT)\b[^"]*)"', code))
        with open(os.path.join(ROOT, 'docs', 'DECISIONS.md')) as file:
            page = ' '.join(file.read().split())
        said = matched(
            r'What serves has at most (\d+) texts, and a connection keeps (\d+) plans', page
        )
        self.assertEqual(int(said.group(1)), len(texts))
        self.assertEqual(said.group(2), '64')
        self.assertLess(len(texts), 64)


class Lines(unittest.TestCase):
    def test_pages_keep_their_width(self) -> None:
        """Each line of a page has less than 100 signs, also in a table and in a block."""
        pages = [os.path.join(ROOT, 'README.md')] + [
            os.path.join(ROOT, 'docs', name)
            for name in os.listdir(os.path.join(ROOT, 'docs'))
            if name.endswith('.md')
        ]
        self.assertGreater(len(pages), 10)
        for page in pages:
            with open(page) as file:
                self.assertEqual(
                    [line for line in file.read().splitlines() if len(line) >= 100],
                    [],
                    page,
                )

    def test_the_questions_of_the_page(self) -> None:
        """Each question of docs/TABLES.md is answered by the file of a desk, here at the end of the
        worked transport: L1 is at B, and the vehicle holds N3 alone."""
        text = blocks_of('docs/TABLES.md', 'Questions that a person may ask')[0][1]
        questions = ' '.join(line for line in text.splitlines() if not line.startswith('--')).split(
            ';'
        )[:-1]
        with tempfile.TemporaryDirectory() as folder:
            db = os.path.join(folder, 'desk.db')
            with open(os.path.join(ROOT, 'examples', 'transport.http'), 'rb') as requests:
                self.assertEqual(
                    subprocess.run(
                        [DESK, 'replay', '--db', db, '--at', '0'],
                        stdin=requests,
                        stdout=subprocess.DEVNULL,
                        timeout=600,
                    ).returncode,
                    0,
                )
            base = sqlite3.connect(db)
            told = [base.execute(question).fetchall() for question in questions]
            base.close()
        self.assertEqual(
            told,
            [
                [('L1', 'station', 'B')],
                [('A', 1, 0, 0), ('B', 1, 1, 0), ('C', 2, 0, 0)],
                [('node', 'N3', 'KIT/0001')],
                [],
                [],
                [('KIT', '0001', 1, 0)],
                [],
            ],
        )

    def test_the_command_that_replays(self) -> None:
        """That command of README answers each request of the file that it is given."""
        blocks = blocks_of('README.md', 'The first five minutes')
        (command,) = [text for _, text in blocks if text.startswith('./desk replay')]
        words, file = command.rstrip('\n').split(' < ')
        words = shlex.split(words)
        self.assertEqual(words[:2], ['./desk', 'replay'])
        with open(os.path.join(ROOT, file), 'rb') as requests:
            done = subprocess.run(
                [DESK, *words[1:]], stdin=requests, capture_output=True, timeout=600
            )
        self.assertEqual((done.returncode, done.stderr), (0, b''))
        with open(os.path.join(ROOT, file), 'rb') as requests:
            asked = len(re.findall(rb' HTTP/1\.1\r\n', requests.read()))
        self.assertGreater(asked, 0)
        self.assertEqual(len(re.findall(rb'HTTP/1\.1 200 OK\r\n', done.stdout)), asked)


if __name__ == '__main__':
    unittest.main()
