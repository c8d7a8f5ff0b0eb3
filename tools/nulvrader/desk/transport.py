"""Sends requests to a desk, and reads the answers: each request on a connection of its own, or many
on one that is kept. Where no answer of a desk comes, `NoAnswer` or `NotADesk` is raised."""
from __future__ import annotations

import base64
import contextlib
import http.client
import re
import ssl
import time
from collections.abc import Callable, Iterator
from typing import Self

from . import wire
from .errors import NoAnswer, NotADesk
from .values import Answer
from ..common.names import BadValue
from ..common.tables import BODY
from ..common.text import shown

ADDRESS = '127.0.0.1:8080'
# The most bytes of an answer. The head of a desk's answer has less than 200 bytes; a proxy adds
# lines. JSON has at most the 200 edges of an order, or the names of a stocktake of 65,536 bytes.
# 1,000,000 loads are 35 MB in the stock report, and 74 MB in the export, with names of 32 bytes.
HEAD = 65_536
JSON = 1_000_000
TEXT = 80_000_000
LONG = ('/report/', '/export/')  # how the paths of answers that are text begin
# Texts that are short in every warehouse: a layout is as long as the largest body, and its last
# line end; 2,001 lines of holds and 100 vehicles have less than 300,000 bytes.
SHORT = {'/export/layout': BODY + 1, '/report/holds': JSON, '/export/vehicles': JSON}


class Transport:
    """Sends requests to the desk at an address: `127.0.0.1:8080`, `http://127.0.0.1:8080`,
    `unix:/run/desk.sock` or, by a proxy with TLS, `https://desk.example`. A path behind a host
    stands before the path of each request. `user` and `password` are for a proxy, and `cafile`
    (PEM) vouches for its certificate. `timeout` is the most seconds from the connection to the last
    byte of the answer. Each request has a connection of its own except within `kept`."""

    def __init__(
        self,
        address: str = ADDRESS,
        *,
        user: str | None = None,
        password: str | None = None,
        cafile: str | None = None,
        timeout: float = 10.0,
    ):
        self.address, self.timeout = address, timeout
        self._location = wire.Place.parse(address)
        is_tls = self._location.is_tls
        self._context = wire.tls_context(cafile) if is_tls else None
        self._headers = {'Host': self._location.header()}
        if user is not None:
            secret = base64.b64encode(f'{user}:{password or ""}'.encode()).decode()
            self._headers['Authorization'] = f'Basic {secret}'
        self._ends: float | None = None  # the moment by which all has to be answered
        self._seconds = timeout  # how long before that it began
        self._keeps = False
        self._wire: wire.Wire | None = None  # the kept connection, once it is made
        self._left: int | None = 0  # how many more requests it takes; None: any number
        self._is_proxied = False  # whether a proxy has named itself in the last answer

    @contextlib.contextmanager
    def within(self, seconds: float) -> Iterator[Self]:
        """Gives all requests of a block together this many seconds."""
        before = self._ends, self._seconds
        self._ends, self._seconds = time.monotonic() + seconds, seconds
        try:
            yield self
        finally:
            self._ends, self._seconds = before

    @contextlib.contextmanager
    def kept(self, count: int | None = None) -> Iterator[Self]:
        """Keeps one connection for `count` requests, or until the block ends; later requests have
        connections of their own again.

        A desk serves its connections one after another. So all that it answers on one connection
        is of one moment, except through a proxy, and meanwhile it answers nobody else. It closes a
        connection on which it hears nothing for ten seconds."""
        if self._keeps:
            yield self  # it is kept already
            return
        self._keeps, self._left = True, count
        try:
            yield self
        finally:
            self._close()

    def _close(self) -> None:
        """Closes the kept connection, if there is one, and keeps none any more."""
        if self._wire is not None:
            self._wire.end()
        self._keeps, self._wire, self._left = False, None, 0

    @contextlib.contextmanager
    def held(self) -> Iterator[Callable[[], None]]:
        """Keeps all other clients from the desk while a block runs, so that nothing changes there.

        The desk serves its connections one after another, and this one stays open: the block calls
        the function that it is given at least every five seconds. Raises `NoAnswer` where another
        connection was needed meanwhile, at such a call or at the end of the block, and at once
        behind a proxy, which has connections of its own."""
        with self.kept():

            def ask() -> None:
                """Asks anything, and raises `NoAnswer` where the connection is another one."""
                before = self._wire
                self.ask('GET', '/')
                is_lost = self._wire is None or before not in (None, self._wire)
                if is_lost or self._is_proxied:
                    why = 'it does not keep the connection, as a proxy does'
                    raise NoAnswer(f'{self.address}: {why}', False)

            ask()
            first = self._wire
            yield ask
            ask()
            if self._wire is not first:
                raise NoAnswer(f'{self.address}: the connection was lost', False)

    def ask(self, method: str, target: str, body: bytes | None = None) -> Answer:
        """Sends one request, and returns what is answered, a refusal too. Raises `NoAnswer` where
        nothing is."""
        if not re.fullmatch('[A-Z]{1,16}', method) or not re.fullmatch('/[!-~]*', target):
            raise BadValue(f'{method[:20]!a} {target[:100]!a} is no request')
        is_last = not self._keeps
        if self._left is not None and not is_last:
            self._left -= 1
            is_last = self._left <= 0
        ends = time.monotonic() + self.timeout
        ends = ends if self._ends is None else min(ends, self._ends)
        used, self._wire = self._wire, None
        is_sent = False
        try:
            if used is None:
                used = wire.connect(self._location, self._context, ends)
            used.begin(ends, HEAD)
            is_sent = True
            answer, is_last = self._exchange(used, method, target, body, is_last)
            if not is_last:
                self._wire, used = used, None
            return answer
        except NotADesk:
            is_last = True
            raise
        except (OSError, http.client.HTTPException) as fault:
            is_last = True
            raise self._no_answer(fault, is_sent) from fault
        finally:
            if used is not None:
                used.end()
            if is_last:
                self._close()

    def _exchange(
        self, used: wire.Wire, method: str, target: str, body: bytes | None, is_last: bool
    ) -> tuple[Answer, bool]:
        """Sends a request, and returns the answer and whether the connection ends with it."""
        headers = {**self._headers, 'Connection': 'close'} if is_last else dict(self._headers)
        if method in ('PUT', 'POST'):
            headers['Content-Length'] = str(len(body or b''))
        connection = http.client.HTTPConnection('localhost')
        connection.auto_open = 0
        connection.sock = used
        most = SHORT.get(target, TEXT if target.startswith(LONG) else JSON)
        try:
            # What answers before it has read the whole body may close the connection meanwhile.
            with contextlib.suppress(BrokenPipeError, ConnectionResetError):
                connection.request(method, self._location.front + target, body, headers)
            with connection.getresponse() as answer:
                used.allowed += most
                self._is_proxied = 'Server' in answer.headers or 'Via' in answer.headers
                return Answer(answer.status, _body(answer, most)), is_last or answer.will_close
        except wire.TooMuch:
            raise NotADesk(f'it answers more than {most:,} bytes', True) from None
        except http.client.RemoteDisconnected:
            raise
        except (http.client.BadStatusLine, http.client.UnknownProtocol) as fault:
            raise NotADesk(f'it answers {shown(str(fault), 80)}', True) from None
        except http.client.IncompleteRead:
            raise
        except (http.client.HTTPException, ValueError, OverflowError) as fault:
            raise NotADesk(f'its answer is not HTTP: {shown(str(fault), 80)}', True) from None

    def _no_answer(self, fault: Exception, is_sent: bool) -> NoAnswer:
        """Returns why no answer came."""

        def why(name: str, **values: str) -> NoAnswer:
            return NoAnswer.at(self.address, is_sent, name, **values)

        if isinstance(fault, ssl.SSLCertVerificationError):
            return why('certificate', why=str(fault.verify_message))
        if isinstance(fault, (ConnectionRefusedError, FileNotFoundError)):
            return why('nobody.path' if self._location.path else 'nobody.port')
        if isinstance(fault, PermissionError) and self._location.path and not is_sent:
            return why('forbidden')
        if isinstance(fault, TimeoutError):
            seconds = f'{min(self.timeout, self._seconds):g}'
            return why('late.answer' if is_sent else 'late.connection', seconds=seconds)
        cause = shown(str(fault), 200) or type(fault).__name__
        return why('cut' if is_sent else 'other', why=cause)


def _body(answer: http.client.HTTPResponse, most: int) -> bytes:
    """Returns the whole body of an answer, of at most `most` bytes. Raises `ValueError` where the
    answer neither says how long it is nor comes in chunks: a body that was cut would look
    whole."""
    if answer.status == 204:
        return b''
    lengths: list[str] = answer.headers.get_all('Content-Length', [])
    if answer.chunked and not lengths:
        data = bytearray()
        while part := answer.read(65_536):
            data += part
            if len(data) > most:
                raise wire.TooMuch
        return bytes(data)
    if answer.chunked or len(lengths) != 1 or not re.fullmatch('[0-9]{1,18}', lengths[0].strip()):
        raise ValueError('it does not say how long it is')
    if int(lengths[0]) > most:
        raise wire.TooMuch
    return answer.read()
