"""Shows that nobody commands the desk through nginx who has no right to: by a page of another
site, as a gateway or a reader, or by trying names and passwords."""
from __future__ import annotations

import concurrent.futures
import http.server
import json
import re
import subprocess
import sys
import threading
import time
import unittest

from tests.support import browser
from tests.support import proxies
from tests.support.behind_nginx import BODY, GUESS, PLACE, ThroughNginx, order_of
from tests.support.board_run import until
from tests.support.browser import Browser
from tests.support.proxies import Told

# The field of a form without a coding: a "=" and the value behind it, it is JSON.
FIELD = '{"ref":"e","node":"N1","x":"'
PAGE = """<!doctype html><title>foreign</title>
<form method=POST enctype=text/plain action='{target}'><input name='{field}' value='"}}'></form>
<script>if (location.search === '?go') document.forms[0].submit()</script>"""


class ForeignSite:
    """A site whose page sends a form to an address, in the browser of somebody who opens it."""

    def __init__(self, target: str) -> None:
        page = PAGE.format(target=target, field=FIELD).encode()

        class Handler(http.server.BaseHTTPRequestHandler):
            """Answers the page."""

            def do_GET(self) -> None:
                self.send_response(200)
                self.send_header('Content-Type', 'text/html')
                self.send_header('Content-Length', str(len(page)))
                self.end_headers()
                self.wfile.write(page)

            def log_message(self, format: str, *args: object) -> None:
                """Nothing is logged."""

        self.server = http.server.ThreadingHTTPServer(('127.0.0.1', 0), Handler)
        self.thread = threading.Thread(target=self.server.serve_forever, daemon=True)
        self.thread.start()
        self.address = f'http://localhost:{self.server.server_port}/?go'

    def close(self) -> None:
        """Ends the site."""
        self.server.shutdown()
        self.server.server_close()
        self.thread.join(60)


@unittest.skipIf(browser.missing(), browser.missing() or '')
class FormOfAForeignPage(ThroughNginx):
    """A person of the warehouse opens a page of another site."""

    def setUp(self) -> None:
        super().setUp()
        self.browser = Browser()
        self.addCleanup(self.browser.close)

    def visit(self, target: str) -> None:
        """The person opens the page, which sends its form to an address."""
        site = ForeignSite(target)
        self.addCleanup(site.close)
        self.browser.open(site.address)

    def sign_in(self, tls: bool) -> None:
        """The browser keeps the password of a dispatcher."""
        origin = self.proxy.origin(tls)
        self.browser.open(origin.replace('://', '://anna:anna%21@'))
        self.browser.open(f'{origin}/report/stock')
        self.assertIn('checking: 0', self.browser.text('body'))

    def refused(self, tls: bool) -> None:
        """The browser sends the form with the password, and it is refused."""
        self.sign_in(tls)
        self.visit(self.proxy.origin(tls) + PLACE)
        self.recorded((PLACE, 'anna', '403'))
        self.goes_on()

    def test_by_nginx_without_tls(self) -> None:
        """The page sends a form to nginx, for which the browser knows the password; it must be
        refused."""
        self.refused(False)

    def test_by_nginx_with_tls(self) -> None:
        """The page sends a form to the server with TLS; it must be refused."""
        self.refused(True)

    def test_at_the_port_itself(self) -> None:
        """The page sends the form to the port of a desk that is in the same network as the browser:
        the desk carries it out, so the attack is real, and the port has to be kept from browsers
        (docs/SECURITY.md)."""
        self.visit(f'http://127.0.0.1:{self.plant.port}{PLACE}')
        until(lambda: order_of(self.plant) is None, 'the desk has carried the form out')


class RequestOfAForeignPage(ThroughNginx):
    """A page of another origin has the browser send requests with the user's password."""

    def test_origins(self) -> None:
        """It sends a command with its own `Origin`, be it only another port, scheme or spelling;
        that must be refused."""
        for tls in (False, True):
            own = self.proxy.origin(tls)
            scheme, host = own.split('://')
            other = 'http' if tls else 'https'
            for origin in (
                'https://evil.example',
                'null',
                f'{other}://{host}',
                f'{scheme}://127.0.0.1:{self.plant.port}',
                f'{scheme}://127.0.0.1',
                f'{scheme}://localhost:{host.split(":")[1]}',
                own.upper(),
                f'{own}/',
                f'{own} {own}',
                f'{own}.evil.example',
                f'{own}@evil.example',
            ):
                for request in (f'POST {PLACE}', 'GET /report/stock'):
                    told = self.proxy.ask(
                        request, f'Origin: {origin}', user='anna', body=BODY, tls=tls
                    )
                    self.assertEqual(told.status, 403, origin)
            lines = ('Origin: https://evil.example', f'Origin: {own}')
            told = self.proxy.ask(f'POST {PLACE}', *lines, user='anna', body=BODY, tls=tls)
            self.assertEqual(told.status, 403)
        self.goes_on()
        for tls in (False, True):
            line = f'Origin: {self.proxy.origin(tls)}'
            told = self.proxy.ask('GET /report/stock', line, user='anna', tls=tls)
            self.assertEqual(told.status, 200)

    def test_sites(self) -> None:
        """It sends a command without `Origin`; the browser says in `Sec-Fetch-Site` that the page
        is of another site or host, and that must be refused."""
        for site in ('cross-site', 'same-site', 'CROSS-SITE', 'same-origin, cross-site', 'x'):
            line = f'Sec-Fetch-Site: {site}'
            for request in (f'POST {PLACE}', 'GET /report/stock', 'GET /board/'):
                self.assertEqual(self.statuses(request, line, body=BODY), [403, 403], site)
        self.goes_on()
        for site in ('same-origin', 'none'):
            line = f'Sec-Fetch-Site: {site}'
            self.assertEqual(self.statuses('GET /report/stock', line), [200, 200])

    def test_names_of_hosts(self) -> None:
        """The name of the attacker's site is made to lead to nginx (DNS rebinding); a request with
        that `Host` must be refused, though its `Origin` is of the same name."""
        for host in ('evil.example', f'evil.example:{self.proxy.port}', '127.0.0.2', '[::1]'):
            for tls in (False, True):
                origin = f"Origin: {'https' if tls else 'http'}://{host}"
                told = self.proxy.ask(
                    f'POST {PLACE}', origin, user='anna', body=BODY, tls=tls, host=host
                )
                self.assertEqual(told.status, 421, host)
        self.goes_on()


class CommandOfAGateway(ThroughNginx):
    """Who has the password of a gateway wants to give commands."""

    def setUp(self) -> None:
        super().setUp()
        words = ('--name', self.proxy.host(True), '--user-header', 'X-User')
        self.board = self.plant.board(*words, port=self.board_port)
        self.board.has_looked(1)

    def token(self) -> str:
        """The token of the board, as a dispatcher gets it."""
        page = self.proxy.ask('GET /board/', user='anna', tls=True).body
        found = re.search(rb'name="token" content="([^"]+)"', page)
        assert found is not None
        return found[1].decode()

    def test_by_the_page_of_the_board(self) -> None:
        """It asks for the board's page and its token; it must get neither."""
        for path in ('', 'data?run=&since=0', 'commands', 'main.js', 'layout'):
            told = self.proxy.ask(f'GET /board/{path}', user='gate', tls=True)
            self.assertEqual(told.status, 403, path)
            self.assertNotIn(self.token(), told.body.decode())

    def test_by_a_path_that_nginx_normalises(self) -> None:
        """It posts a command to the board as `/uagv/../board/do`, in many spellings, with a token
        that it has from elsewhere; that must be refused."""
        lines = (f'X-Board-Token: {self.token()}', f'Origin: {self.proxy.origin(True)}')
        values = {'vehicle': 'KIT/0001', 'ref': 'e', 'node': 'N1'}
        body = json.dumps({'command': 'place', 'values': values})
        targets = [
            f'/uagv/{up}board{slash}do'
            for up in ('../', '%2e%2e/', '.%2e/', '..%2f', '%2e%2e%2f', '..\\', '..%5c', 'x/../../')
            for slash in ('/', '%2f', '//')
        ]
        targets += [
            '//board/do',
            '/./board/do',
            '/board//do',
            '/board/do;x',
            '/board/do%00',
            '/board%2fdo',
        ]
        targets += [
            '/uagv/v2/KIT/0001/state/../../../../../board/do',
            '/board/do\x01',
            '/board/d\xf6',
        ]
        for target in targets:
            told = self.proxy.ask(f'POST {target}', *lines, user='gate', body=body, tls=True)
            self.assertEqual(told.status, 400, target)
        self.assertEqual(
            self.statuses('POST /board/do', *lines, user='gate', body=body), [403, 403]
        )
        self.goes_on()
        self.recorded(('/board/do', 'gate', '403'))

    def test_by_other_calls(self) -> None:
        """It tries each command of the desk, and paths that only begin as that of a state; all must
        be refused."""
        calls = ['PUT /layout', 'POST /loads/L1/leave', 'DELETE /jobs/J1', 'POST /stocktakes/R1']
        calls += [
            f'POST /{name}'
            for name in ('vehicles', 'loads', 'jobs', 'orders', 'drives', 'loads/L1/correct')
        ]
        acts = ('advance', 'cancel', 'pause', 'resume', 'place', 'resync')
        calls += [f'POST /vehicles/KIT/0001/{act}' for act in acts]
        calls += [
            'POST /uagv/v2/KIT/0001/order',
            'POST /uagv/v2/KIT/0001/state/x',
            'POST /uagv/v2/KIT/state',
        ]
        calls += [
            'POST /uagv/v2/KIT/0001/state?x',
            'PUT /uagv/v2/KIT/0001/state',
            'PATCH /loads',
            'TRACE /',
        ]
        for call in calls:
            for status in self.statuses(call, user='gate', body=BODY):
                self.assertIn(status, (403, 405), call)
        self.goes_on()


class CommandOfAReader(ThroughNginx):
    """Who may only look wants to give commands."""

    def test_the_token_of_the_board(self) -> None:
        """It looks for the board's token in its page, also under the name of a dispatcher; it must
        not be there."""
        words = ('--name', self.proxy.host(True), '--user-header', 'X-User')
        self.plant.board(*words, port=self.board_port).has_looked(1)
        for line in ('X-User: anna', 'x-user: anna', 'X_User: anna'):
            page = self.proxy.ask('GET /board/', line, user='otto', tls=True)
            self.assertEqual(page.status, 200)
            self.assertIn(b'name="token" content=""', page.body)

    def test_commands(self) -> None:
        """It sends commands to the desk and to the board, and states; all must be refused, and be
        in the record."""
        state = '/uagv/v2/KIT/0001/state'
        for target in (PLACE, '/loads', '/board/do', '/board/look', state):
            self.assertEqual(self.statuses(f'POST {target}', user='otto', body=BODY), [403, 403])
        self.goes_on()
        self.recorded(*[(PLACE, 'otto', '403'), ('/board/do', 'otto', '403')] * 2)

    def test_a_name_in_other_letters(self) -> None:
        """The user ANNA, a reader, wants the role of anna; it must not get it."""
        self.assertEqual(self.statuses(f'POST {PLACE}', user='ANNA', body=BODY), [403, 403])
        self.assertEqual(self.statuses('GET /report/stock', user='ANNA'), [200, 200])
        self.goes_on()

    def test_each_command_is_in_the_record(self) -> None:
        """A dispatcher gives commands and denies it later; each must be in the record, with the
        user and the body."""
        self.assertEqual(self.statuses(f'POST {PLACE}', body=BODY), [200, 409])
        self.assertEqual(self.statuses('POST /board/do', body=BODY), [404, 502])
        self.recorded((PLACE, 'anna', '200'), (PLACE, 'anna', '409'))
        self.recorded(('/board/do', 'anna', '404'), ('/board/do', 'anna', '502'))
        self.assertEqual({one['body'] for one in self.proxy.records()}, {BODY})


class NamesOfUsers(ThroughNginx):
    """Who has no password wants to know which users and vehicles there are."""

    @staticmethod
    def seen(told: Told) -> tuple[int, str, bytes]:
        """An answer without its date."""
        return told.status, re.sub(r'\r\nDate: [^\r]*', '', told.head), told.body

    def test_unknown_users(self) -> None:
        """It claims names with a wrong password, for calls that roles allow and that they don't;
        all answers must be the same."""
        for request in ('GET /report/stock', f'POST {PLACE}', 'POST /nothing', 'GET /board/'):
            users = ('anna:x', 'otto:x', 'gate:x', 'nobody-here:x')
            with concurrent.futures.ThreadPoolExecutor(4) as pool:
                told = list(pool.map(lambda user: self.proxy.ask(request, user=user), users))
            self.assertEqual({self.seen(one) for one in told}, {self.seen(told[0])}, request)
            self.assertEqual(told[0].status, 401)

    def test_unknown_vehicles(self) -> None:
        """A reader sends commands about vehicles and loads that there are and that there aren't;
        the answers must be the same."""
        for known, unknown in (
            (PLACE, '/vehicles/NO/9/place'),
            ('/loads/L1/leave', '/loads/NO/leave'),
        ):
            answers = [
                self.seen(self.proxy.ask(f'POST {target}', user='otto', body=BODY))
                for target in (known, unknown)
            ]
            self.assertEqual(answers[0], answers[1])
            self.assertEqual(answers[0][0], 403)


class Passwords(ThroughNginx):
    """Who has no password tries many."""

    def test_many_at_once(self) -> None:
        """It tries 200 passwords of a dispatcher on as many connections; only 16 at a time may be
        looked at, each for two seconds, and the others must be refused unlooked."""
        begun = time.monotonic()
        with concurrent.futures.ThreadPoolExecutor(200) as pool:
            users = [f'anna:try{number}' for number in range(200)]
            told = list(
                pool.map(lambda user: self.proxy.ask('GET /report/stock', user=user), users)
            )
        took = time.monotonic() - begun
        statuses = [one.status for one in told]
        self.assertEqual(set(statuses), {401, 429})
        self.assertGreater(took, 2.0)
        self.assertLessEqual(statuses.count(401), 16 * (took / 2.0 + 1))

    def test_without_waiting(self) -> None:
        """It closes each connection before the late answer, so that it keeps no place; only 40
        passwords of a dispatcher a second may be looked at, and 41 more at the beginning."""
        line = [sys.executable, '-c', GUESS, str(self.proxy.port), '6', proxies.basic('anna', 'x')]
        begun = time.monotonic()
        subprocess.run(line, check=True, timeout=300)
        until(lambda: self.looked() > 20, 'the passwords are looked at')
        self.assertLessEqual(self.looked(), 41 + 40 * (time.monotonic() - begun))

    def looked(self) -> int:
        """How many passwords of the dispatcher were looked at, and were wrong."""
        return self.proxy.errors().count('user "anna": password mismatch')
