"""Shows that noise from a seeded generator, through `replay` and `serve`, ends the program in no
other way than by its rules: 100,000 bytes in each of three tests, or ten million where
NULVRADER_LONG is 1."""
from __future__ import annotations

import os
import socket
import tempfile
import unittest
from typing import Any

from tests.support.answers import LONG, answers_of
from tests.support.broken_requests import Broken
from tests.support.desks import AT, Serving, over_sockets, run
from tests.support.whole_answers import Bytes

NOISE = 10_000_000 if LONG else 100_000  # bytes that each test of noise sends, at least


def talk(desk: Any, data: bytes) -> tuple[Any, bool]:
    """One connection: what it is answered, and whether the desk has closed it without a reset, by
    which answers may be lost."""
    plain, out = desk.plain(), b''
    try:
        plain.sendall(data)
        plain.shutdown(socket.SHUT_WR)
        while True:
            part = plain.recv(65536)
            if not part:
                return out, True
            out += part
    except (ConnectionError, OSError):
        return out, False
    finally:
        plain.close()


class Noise(Bytes):
    def check_stream(self, out: Any, wanted: Any, closes: Any, seed: int) -> None:
        found, left = answers_of(out)
        self.assertEqual(left, b'', seed)
        self.assertEqual([(answer.status, answer.body) for answer in found], wanted, seed)
        self.assertEqual(
            [number for number, answer in enumerate(found) if answer.closes],
            [len(found) - 1] if closes else [],
            seed,
        )

    def check_changed(self, found: Any, seed: int) -> None:
        """Answers to requests that may mean anything: a refusal that ends a stream is the last one,
        and none is for want of the machine."""
        for number, answer in enumerate(found):
            self.assertNotEqual(answer.status, 503, seed)
            if answer.closes:
                self.assertEqual(number, len(found) - 1, seed)
            elif answer.status in (411, 413, 501):
                self.fail(f'{answer.status} goes on, seed {seed}')

    def tell(self, what: str, *counts: Any) -> None:
        if LONG:
            print(what % tuple('{:,}'.format(count) for count in counts))

    def test_replay(self) -> None:
        sent, streams, answers, ended = 0, 0, 0, set()
        while sent < NOISE:
            streams += 1
            data, wanted, closes = Broken(streams).stream()
            status, out, said = run('replay', '--db', 'memory', '--at', AT, stdin=data)
            self.assertEqual((status, said), (0, b''), streams)
            self.check_stream(out, wanted, closes, streams)
            ended.add(wanted[-1][0])
            sent += len(data)
            answers += len(wanted)
        self.tell(
            'replay: %s bytes of broken requests in %s streams, %s answers as reckoned',
            sent,
            streams,
            answers,
        )
        self.assertGreaterEqual(len(ended), 4)

    def test_replay_of_changed_streams(self) -> None:
        sent, streams, answers = 0, 0, 0
        while sent < NOISE:
            streams += 1
            data = Broken(1_000_000 + streams).changed()
            found = self.replay(data)
            self.check_changed(found, streams)
            answers += len(found)
            sent += len(data)
        self.tell(
            'replay: %s bytes of changed streams, %s of them, %s answers', sent, streams, answers
        )
        self.assertGreater(answers, sent / 2_000)

    @over_sockets
    def test_serve(self) -> None:
        """A connection for each stream whose answers are reckoned, and one behind it for a changed
        stream, over one desk on a file. Where the desk closes with bytes unread the answers may be
        cut. The bytes of the reckoned streams alone count."""
        sent, streams, whole, read, reckoned = 0, 0, 0, 0, 0
        changed, met = 0, 0
        with (
            tempfile.TemporaryDirectory() as folder,
            Serving(os.path.join(folder, 'noise.db'), 4294967295) as desk,
        ):
            while sent < NOISE:
                streams += 1
                seed = 2_000_000 + streams
                data, wanted, closes = Broken(seed).stream()
                out, is_whole = talk(desk, data)
                found, _ = answers_of(out)
                if is_whole:
                    self.check_stream(out, wanted, closes, seed)
                    whole += 1
                else:
                    self.assertEqual(
                        [(answer.status, answer.body) for answer in found],
                        wanted[: len(found)],
                        seed,
                    )
                sent += len(data)
                read += len(found)
                reckoned += len(wanted)
                data = Broken(-seed).changed()
                found, _ = answers_of(talk(desk, data)[0])
                self.check_changed(found, seed)
                changed += len(data)
                met += len(found)
            self.tell(
                'serve: %s bytes of broken requests over %s connections, %s answered whole',
                sent,
                streams,
                whole,
            )
            self.tell('serve: of %s answers to them %s were read, as reckoned', reckoned, read)
            self.tell('serve: %s bytes of changed streams besides, %s answers', changed, met)
            self.assertGreater(whole, 3)
            self.assertIsNone(desk.process.poll())
            self.assertEqual(desk.ask('GET', '/loads/no')[0], 404)


class Checker(unittest.TestCase):
    def test_what_is_no_answer(self) -> None:
        """Outputs that must not pass for answers."""
        good = (
            b'HTTP/1.1 404 Not Found\r\nContent-Length: 30\r\nContent-Type:'
            b' application/json\r\n\r\n'
        )
        good += b'{"name":"NoLoad","refusal":23}'
        self.assertEqual(len(answers_of(good + good)[0]), 2)
        for bad in (
            good.replace(b'404', b'409'),
            good.replace(b'23', b'24'),
            good.replace(b'Not Found', b'Found'),
            good.replace(b'json', b'html'),
            good.replace(b'\r\nContent-Type', b'\r\nAllow: GET\r\nContent-Type'),
            good.replace(b'404 Not Found', b'200 OK'),
        ):
            with self.assertRaises(Exception):
                answers_of(bad)
        self.assertEqual(answers_of(good[:-1]), ([], good[:-1]))


if __name__ == '__main__':
    unittest.main()
