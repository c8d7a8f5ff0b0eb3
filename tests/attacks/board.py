"""Shows that neither a page of another site nor another user of the machine commands by the
board."""
from __future__ import annotations

import contextlib
import os
import signal
import socket
import socketserver
import subprocess
import sys
import tempfile
import threading
import unittest
from collections.abc import Iterator

from tests.support import browser
from tests.support.board_run import TOOLS, Plant, Process, Watching, has_loopback, until
from tests.support.browser import Browser

ATTACK = '''<!DOCTYPE html><title>attack</title><script>
// Whatever is tried here must read nothing of the board and do nothing by it.
window.attack = async (board, token) => {
  const found = [];
  const tried = async (what, work) => {
    try { found.push([what, String(await work())]); } catch (fault) { found.push([what, '']); }
  };
  const text = async (answer) => (await answer).text();
  const host = board.split('/')[2];
  const leave = JSON.stringify({ command: 'leave', values: { load: 'L1', ref: 'R1' } });
  for (const origin of [board, location.origin + '/']) {
    for (const path of ['', 'data', 'commands', 'history?load=L1']) {
      await tried(`${origin} ${path}`, () => text(fetch(origin + path)));
      const opaque = { mode: 'no-cors' };
      await tried(`${origin} ${path} opaque`, () => text(fetch(origin + path, opaque)));
    }
    // a body that begins a request of its own: the line of the next request ends its last header
    const begins = `GET / HTTP/1.1\\r\\nHost: ${host}\\r\\n`;
    for (const body of [`${begins}X: `, `${begins}\\r\\n`]) {
      const post = { method: 'POST', mode: 'no-cors', body };
      for (let turn = 0; turn < 5; turn += 1) {
        await tried(`${origin} begins`, () => text(fetch(origin + 'do', post)));
        await tried(`${origin} goes on`, () => text(fetch(`${origin}x${turn}`)));
      }
    }
    const smuggled = `POST /do HTTP/1.1\\r\\nHost: ${host}\\r\\nOrigin: http://${host}\\r\\n`
      + `X-Board-Token: ${token}\\r\\nContent-Length: ${leave.length}\\r\\n\\r\\n${leave}`;
    for (const body of [leave, smuggled]) {
      for (const mode of ['cors', 'no-cors']) {
        const headers = mode === 'cors' ? { 'X-Board-Token': token } : {};
        const post = { method: 'POST', mode, headers, body };
        await tried(`${origin} ${mode}`, () => text(fetch(origin + 'do', post)));
      }
    }
  }
  const frame = document.createElement('iframe');
  frame.src = board;
  await new Promise((done) => { frame.onload = done; document.body.append(frame); });
  await tried('frame', () => frame.contentDocument.documentElement.outerHTML);
  await tried('its script', () => import(board + 'main.js').then(() => 'imported'));
  return found;
};
</script><body>attack</body>'''


class ForeignServer(socketserver.ThreadingTCPServer):
    """Serves the page of an attacker at ::1, whose name leads to the board once it is closed."""

    address_family = socket.AF_INET6
    allow_reuse_address = True
    daemon_threads = True

    def __init__(self, port: int) -> None:
        self.lock, self.is_over = threading.Lock(), False
        self.taken: list[socket.socket] = []
        super().__init__(('::1', port), ForeignHandler)

    def end(self) -> None:
        """Listens no more, and answers nothing more on a connection that the browser has opened
        before it has something to ask."""
        self.shutdown()
        self.server_close()
        with self.lock:
            self.is_over = True
            for one in self.taken:
                with contextlib.suppress(OSError):  # it is closed already
                    one.shutdown(socket.SHUT_RDWR)


class ForeignHandler(socketserver.StreamRequestHandler):
    """Answers whatever is asked with the page."""

    server: ForeignServer

    def handle(self) -> None:
        with self.server.lock:
            self.server.taken.append(self.connection)
            if self.server.is_over:
                return
        with contextlib.suppress(ConnectionError):
            self.rfile.readline()
            self.answer()

    def answer(self) -> None:
        """Gives the page, unless the server has ended."""
        page = ATTACK.encode()
        head = b'HTTP/1.1 200 OK\r\nContent-Type: text/html\r\nContent-Length: %d\r\n'
        head += b'Cache-Control: no-store\r\nConnection: close\r\n\r\n'
        with self.server.lock:
            if not self.server.is_over:
                self.wfile.write(head % len(page) + page)


def has_six() -> bool:
    """Whether a program may listen on ::1 here."""
    with contextlib.suppress(OSError), socket.create_server(('::1', 0), family=socket.AF_INET6):
        return True
    return False


@unittest.skipIf(browser.missing() is not None, browser.missing() or '')
@unittest.skipUnless(has_six(), 'no sockets on ::1 here')
class ForeignPage(Watching):
    """A page of another site in Chromium, whose name first leads to the attacker and then to the
    board."""

    def test_a_foreign_page(self) -> None:
        """It reads nothing of the board, though it even knows the token, and no command of it is
        carried out."""
        self.attack('evil.localhost')

    def test_a_page_of_the_internet(self) -> None:
        """The same by a name that is not of this machine, and that its owner leads here."""
        self.attack('evil.example', 'MAP evil.example evil.localhost')

    def attack(self, host: str, names: str = '') -> None:
        """Opens the attacker's page of a host, and lets it attack once the name leads to the
        board."""
        port = self.board.port
        served = ForeignServer(port)
        threading.Thread(target=served.serve_forever, daemon=True).start()
        self.addCleanup(served.end)
        page = Browser(names=names)
        self.addCleanup(page.close)
        page.open(f'http://{host}:{port}/')
        until(
            lambda: page.run('return typeof window.attack') == 'function',
            'the page of the attacker',
        )
        served.end()
        token = self.board.token()
        found = page.run(
            'return window.attack(arguments[0], arguments[1])', f'http://127.0.0.1:{port}/', token
        )
        self.assertGreater(len(found), 50)
        for what, text in found:
            self.assertNotIn('name="token"', text, what)
            self.assertNotIn('"values"', text, what)
            self.assertNotIn('"nodes"', text, what)
            self.assertNotIn('imported', text, what)
        self.assertTrue(any('does not answer to the name' in text for _, text in found), found)
        self.assertEqual(self.desk.load('L1').place, 'station A')
        self.assertEqual(self.board.rows('SELECT * FROM commands'), [])


@unittest.skipUnless(has_loopback(), 'no sockets on 127.0.0.1 here')
@unittest.skipUnless(os.geteuid() == 0, 'only root may run a program as another user')
class OtherUser(unittest.TestCase):
    """A program of another user of the machine."""

    def setUp(self) -> None:
        self.plant = Plant()
        self.addCleanup(self.plant.close)
        self.folder = tempfile.TemporaryDirectory()
        self.addCleanup(self.folder.cleanup)
        os.chmod(self.folder.name, 0o755)
        self.path = os.path.join(self.folder.name, 'board.sock')

    def start(self) -> Process:
        """A board that listens on a socket, and on no port."""
        line = [
            sys.executable,
            os.path.join(TOOLS, 'board'),
            '--desk',
            f'127.0.0.1:{self.plant.port}',
        ]
        line += [
            '--db',
            self.plant.path('board.db'),
            '--socket',
            self.path,
            '--name',
            'desk.example',
        ]
        made = Process(line)
        self.plant.running.append(made)
        return made

    def asked(self, user: int) -> str:
        """What a program of a user is answered that asks for the page."""
        request = 'GET / HTTP/1.1\\r\\nHost: desk.example\\r\\n\\r\\n'
        script = (
            'import socket, sys\nplain = socket.socket(socket.AF_UNIX)\n'
            'try:\n    plain.connect(sys.argv[1])\n'
            'except OSError as fault:\n    sys.exit(type(fault).__name__)\n'
            f"plain.sendall(b'{request}')\n"
            "print(plain.makefile('rb').read().decode())"
        )
        line = ['/usr/bin/python3', '-c', script, self.path]
        done = subprocess.run(
            line,
            capture_output=True,
            text=True,
            timeout=300,
            user=user,
            group=user,
            extra_groups=[],
        )
        return done.stdout + done.stderr

    def test_a_socket_of_others(self) -> None:
        """Behind a socket the page and its token are had by the users of its group alone, and by no
        port."""
        for _ in range(2):  # the second time the socket of the first is left there
            board = self.start()
            self.assertEqual(os.stat(self.path).st_mode & 0o777, 0o660)
            self.assertIn('name="token"', self.asked(0))
            self.assertEqual(self.asked(65534).strip(), 'PermissionError')
            with open(f'/proc/{board.process.pid}/net/tcp') as file:
                listening = [line.split()[9] for line in file if line.split()[3] == '0A']
            sockets = {
                os.readlink(f'/proc/{board.process.pid}/fd/{name}') for name in self.files(board)
            }
            self.assertFalse({f'socket:[{number}]' for number in listening} & sockets)
            board.stop(signal.SIGKILL)

    @staticmethod
    def files(board: Process) -> Iterator[str]:
        """The open files of a board that still are when they are looked at."""
        folder = f'/proc/{board.process.pid}/fd'
        for name in os.listdir(folder):
            if os.path.islink(os.path.join(folder, name)):
                yield name
