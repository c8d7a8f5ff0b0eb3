"""Shows that nothing is lost but what was to be seen in between, board.db is whole, and no command
is carried out twice or by half, where the desk and the browser are killed (SIGKILL) while the board
is at work; test_board.py kills the board."""

from __future__ import annotations

import contextlib
import http.client
import signal
import socket
import subprocess
import threading
import time
import unittest

from tests.support.board_run import ONE, PROGRAM, TWO, Plant, Refused, Watching, until
from tests.support.browser import Browser, Failed
from nulvrader.desk.client import NoAnswer
from tests.support.board_page import Page

MOVES = "SELECT from_place, to_place FROM load_moves WHERE load = '%s' ORDER BY n"


class Relay(threading.Thread):
    """Stands between a board and its desk, and passes each request and its answer on. Where `kill`
    is `before`, the next POST kills the desk before it reaches it, and where it is `after`, once it
    has answered; that answer is lost.
    """

    def __init__(self, plant: Plant):
        super().__init__(daemon=True)
        self.plant, self.kill = plant, ''
        self.listener = socket.create_server(('127.0.0.1', 0))
        self.port = int(self.listener.getsockname()[1])

    def run(self) -> None:
        with contextlib.suppress(OSError):  # it was closed
            while True:
                connection = self.listener.accept()[0]
                threading.Thread(target=self.serve, args=(connection,), daemon=True).start()

    def serve(self, client: socket.socket) -> None:
        """One request. Where the desk does not answer, the connection is closed."""
        with client, contextlib.suppress(OSError):
            request = read_message(client)
            kill, self.kill = (self.kill, '') if request.startswith(b'POST ') else ('', self.kill)
            if kill == 'before':
                self.plant.served.process.kill()
                return
            with socket.create_connection(('127.0.0.1', self.plant.port), timeout=600) as desk:
                desk.sendall(request)
                answer = read_message(desk)
            if kill == 'after':
                self.plant.served.process.kill()
                return
            client.sendall(answer)


def read_message(source: socket.socket) -> bytes:
    """A request or an answer, whole."""
    told = b''
    while b'\r\n\r\n' not in told:
        told += some(source)
    head, _, body = told.partition(b'\r\n\r\n')
    lengths = [
        line.partition(b':')[2]
        for line in head.split(b'\r\n')
        if line.lower().startswith(b'content-length:')
    ]
    while len(body) < int(lengths[0] if lengths else 0):
        body += some(source)
    return head + b'\r\n\r\n' + body


def some(source: socket.socket) -> bytes:
    """The next bytes; an OSError at the end."""
    data = source.recv(65536)
    if not data:
        raise ConnectionResetError('the end')
    return data


class DeskKilled(Watching):
    def die(self) -> None:
        """The desk is killed, and the page shows that it is down, and since when."""
        before = time.time_ns() // 1_000_000
        self.plant.served.stop(signal.SIGKILL)
        self.is_down(before)

    def is_down(self, before: int) -> None:
        told = self.wait('desk', '', up=False)
        self.assertTrue(before <= int(str(told['since'])) <= time.time() * 1000, told)

    def come_back(self) -> None:
        """It is started again, and followed; board.db is whole."""
        self.plant.start_desk()
        self.follows()

    def follows(self) -> None:
        self.wait('desk', '', up=True, fault=None)
        self.assertEqual(self.board.rows('PRAGMA integrity_check'), [('ok',)])

    def test_idle(self) -> None:
        for turn in range(2):
            self.die()
            self.come_back()
            self.desk.correct_load('L1', f'R{turn}', 'BC'[turn])
            self.wait('load', 'L1', place=f'station {"BC"[turn]}')
        self.rows(MOVES % 'L1', [('station A', 'station B'), ('station B', 'station C')])
        self.rows('SELECT answers FROM desk_times ORDER BY n', [(1,), (0,), (1,), (0,), (1,)])

    def test_while_vehicles_drive(self) -> None:
        """KIT/0001 carries L1 to and fro, and KIT/0002 posts a state after the other. The desk is
        killed at several moments after it has confirmed a move: each move stands in load_moves,
        once."""
        self.plant.vehicle(TWO, 'N4')
        over = threading.Event()

        def post() -> None:
            while not over.wait(0.01):
                with contextlib.suppress(NoAnswer):
                    self.plant.state(TWO, 'N4')

        posts = threading.Thread(target=post)
        posts.start()
        self.addCleanup(posts.join)
        self.addCleanup(over.set)
        moves: list[tuple[object, ...]] = []
        for turn, seconds in enumerate((0.0, 0.1, 0.3, 0.8)):
            ends = [('A', 'N1'), ('B', 'N3')]
            (start, begin), (target, end) = ends if turn % 2 == 0 else ends[::-1]
            order = f'O{turn}'
            self.desk.add_job(f'J{turn}', 'L1', target)
            self.desk.start_order(order, ONE, job=f'J{turn}', edges=2)
            for node, sequence, done, move in (
                (begin, 0, 1, ('station ' + start, 'vehicle KIT/0001')),
                (end, 4, 2, ('vehicle KIT/0001', 'station ' + target)),
            ):
                acts = tuple((f'{order}.{act}', 'FINISHED') for act in range(done))
                self.plant.state(ONE, node, order, 0, sequence, acts)
                moves.append(move)
                time.sleep(seconds)
                self.die()
                self.come_back()
                self.rows(MOVES % 'L1', moves)
        self.held_by_both()

    def held_by_both(self) -> None:
        """What is held is what the desk says; no order is open."""
        held = {'node N1': 'KIT/0001', 'node N4': 'KIT/0002'}
        until(lambda: self.board.all('hold') == held, 'what is held')
        self.wait('vehicle', 'KIT/0001', order_name=None, node='N1', loads=[])

    def relay(self) -> Relay:
        """Has the board ask the desk through a relay, which may lose an answer."""
        relay = Relay(self.plant)
        relay.start()
        self.addCleanup(relay.listener.close)
        self.board.stop()
        self.board = self.plant.board('--desk', f'127.0.0.1:{relay.port}')
        self.board.has_looked(2)
        return relay

    def test_while_a_command_of_the_page_is_on_its_way(self) -> None:
        """Killed before the command has come to it, and killed once it has carried it out, before
        its answer has come: the page is told that it may have been done or not. Asked once more it
        is carried out, or refused as done; the load has moved once."""
        relay = self.relay()
        for load, kill, station in (('L1', 'before', 'B'), ('L2', 'after', 'C')):
            look = self.board.post('/look', 'correct', load=load, station=station)
            before = time.time_ns() // 1_000_000
            relay.kill = kill
            told = self.board.post('/do', 'correct', **look['values'])
            self.assertEqual(told['done'], False, told)
            self.assertTrue(told['text'].startswith('The desk does not answer: '), told)
            self.assertTrue(
                told['advice'].startswith('It may have been done or not: look first'), told
            )
            self.is_down(before)
            self.plant.served.stop(signal.SIGKILL)
            self.come_back()
            if kill == 'after':
                self.wait('load', load, place='station ' + station)
            self.assertEqual(
                self.desk.load(load).place,
                'station A' if kill == 'before' else 'station ' + station,
            )
            again = self.board.post('/do', 'correct', **look['values'])
            self.assertEqual(
                (again['done'], again.get('refusal')),
                (True, None) if kill == 'before' else (False, 'RefUsed'),
            )
            self.rows(MOVES % load, [('station A', 'station ' + station)])
            done = f"SELECT done FROM commands WHERE said LIKE '%\"{load}\"%' ORDER BY n"
            self.rows(done, [(0,), (1,)] if kill == 'before' else [(0,), (0,)])

    def test_while_a_drive_is_on_its_way(self) -> None:
        """Where its answer is lost, the page is told the name of its order."""
        relay = self.relay()
        values = {'vehicle': 'KIT/0001', 'node': 'N2', 'edges': 'all', 'order': 'G1'}
        look = self.board.post('/look', 'drive', **values)
        relay.kill = 'after'
        told = self.board.post('/do', 'drive', **look['values'])
        self.assertEqual((told['done'], told.get('refusal')), (False, None))
        advice = 'look first, and then ask the same again. The name of the order is G1.'
        self.assertTrue(told['advice'].endswith(advice), told)
        self.plant.served.stop(signal.SIGKILL)
        self.come_back()
        self.wait('vehicle', 'KIT/0001', order_name='G1')
        again = self.board.post('/do', 'drive', **look['values'])
        self.assertEqual((again['done'], again.get('refusal')), (False, 'Exists'))

    def test_while_it_opens(self) -> None:
        """A file of some more loads is opened again and again, and the desk is killed before it is
        open; in the end it is, and the loads that came meanwhile are seen."""
        self.die()
        count = 500
        self.plant.replay(*(('POST', '/loads', {'load': f'X{number}'}) for number in range(count)))
        begun = time.monotonic()
        self.plant.start_desk()
        took = time.monotonic() - begun
        self.follows()
        self.die()
        for part in (0.0, 0.3, 0.6, 0.9):
            line = [
                PROGRAM,
                'serve',
                '--db',
                self.plant.path('warehouse.db'),
                '--port',
                str(self.plant.port),
            ]
            opens = subprocess.Popen(
                [*line, '--connections', '9'], stdout=subprocess.DEVNULL, stderr=subprocess.DEVNULL
            )
            time.sleep(part * took)
            opens.kill()
            opens.wait(300)
        self.come_back()
        self.wait('counts', '', loads=2 + count, checking=count)
        self.rows(
            "SELECT count(*), count(DISTINCT load) FROM load_moves WHERE load LIKE 'X%'",
            [(count, count)],
        )
        self.desk.correct_load('L1', 'R1', 'C')
        self.wait('load', 'L1', place='station C')
        self.rows(MOVES % 'L1', [('station A', 'station C')])


class BrowserKilled(Page):
    def check_the_console(self) -> None:
        """That of a browser which was killed can't be read; of the last one it is done at the end
        of each test."""

    def again(self) -> None:
        """A new browser opens the page, which shows everything; board.db is whole."""
        self.browser = Browser()
        self.addCleanup(self.browser.close)
        self.browser.open(f'http://127.0.0.1:{self.board.port}/')
        self.sees('.vehicle-card', 'KIT/0001')
        self.sees('#desk', 'The desk answers')
        self.assertEqual(self.board.rows('PRAGMA integrity_check'), [('ok',)])

    def commands(self) -> list[tuple[object, ...]]:
        """The commands of the record."""
        return list(self.board.rows('SELECT command, done FROM commands ORDER BY n'))

    def test_while_a_command_is_open(self) -> None:
        """While its form is filled in, and while it shows what it will do: nothing of it is
        done."""
        self.browser.click('#tab-stock')
        self.browser.press('Register a load', '#stock')
        self.browser.write('#field-load', 'L7')
        self.browser.kill()
        self.again()
        self.browser.click('.vehicle-card .head')
        self.browser.press('Pause', '.vehicle-card')
        self.sees('#command', 'KIT/0001 is told to pause.')
        self.browser.kill()
        self.again()
        self.assertEqual(self.commands(), [])
        self.assertIsNone(self.desk.vehicle(ONE).pending)
        self.sees('#tab-stock', '2')
        self.browser.click('.vehicle-card .head')
        self.browser.press('Pause', '.vehicle-card')
        self.sees('#command', 'KIT/0001 is told to pause.')
        self.browser.press('Do it', '#command')
        self.sees('#command .answer', 'KIT/0001 is told to pause (instant-1).')
        self.assertEqual(self.commands(), [('pause', 1)])
        super().check_the_console()

    def test_while_a_command_is_given(self) -> None:
        """At several moments after it was given: it is carried out and stands in the record, or it
        is not and does not."""
        given: list[tuple[object, ...]] = []
        for number, seconds in enumerate((0.0, 0.003, 0.02, 0.3)):
            load = f'L{10 + number}'
            self.browser.click('#tab-stock')
            self.browser.press('Register a load', '#stock')
            self.browser.write('#field-load', load)
            self.browser.press('What will it do?', '#command')
            self.sees('#command', f'{load} is a new load, and stands at the checking place.')
            self.browser.run('document.querySelector("#command .buttons .main").click()')
            time.sleep(seconds)
            self.browser.kill()
            self.again()
            given += [('register', 1)] if self.is_there(load) else []
            until(lambda: self.commands() == given, f'the record has {given}')
            self.board.has_looked(2 + len(given))
            self.assertEqual(self.is_there(load), bool(self.board.get('load', load)))
        super().check_the_console()

    def is_there(self, load: str) -> bool:
        """Whether the desk has a load, once what was given to the board is through."""
        time.sleep(1)
        try:
            return self.desk.load(load).place == 'checking'
        except Refused:
            return False

    def test_while_the_page_is_loading(self) -> None:
        for seconds in (0.0, 0.1, 0.4):
            self.browser.open('about:blank')
            opens = threading.Thread(target=self.opened, args=(self.browser,))
            opens.start()
            time.sleep(seconds)
            self.browser.kill()
            opens.join()
            self.again()
        self.desk.correct_load('L2', 'R1', 'B')
        self.on_the_map('station', 'Station B', '1 of 2 taken')
        super().check_the_console()

    def opened(self, browser: Browser) -> None:
        """Opens the page, unless the browser is killed meanwhile."""
        with contextlib.suppress(OSError, http.client.HTTPException, Failed, ValueError):
            browser.open(f'http://127.0.0.1:{self.board.port}/')


if __name__ == '__main__':
    unittest.main()
