"""Connects to a desk, over TCP, TLS or a Unix socket. All the work for one answer has one deadline,
and no more is read than the answer may have."""
from __future__ import annotations

import io
import queue
import re
import socket
import ssl
import threading
import time
import urllib.parse
from collections.abc import Callable
from dataclasses import dataclass
from typing import TYPE_CHECKING, Any

from ..common import plain_files

if TYPE_CHECKING:
    from _typeshed import WriteableBuffer

UNIX = 'unix:'
UNIX_PATH = 107  # the most bytes of the path of a Unix socket
FORMS = 'HOST:PORT, http://HOST:PORT, https://HOST or unix:/PATH'


def tls_context(cafile: str | None) -> ssl.SSLContext:
    """Returns how certificates are checked: by the authorities of a file, or by those of the
    machine. Raises OSError where the file is no regular one."""
    if cafile is not None:
        plain_files.check(cafile)
    return ssl.create_default_context(cafile=cafile)


class TooMuch(Exception):
    """More bytes have come than an answer may have."""


@dataclass(frozen=True)
class Place:
    """Where a server is: a host and a port, or the path of a Unix socket. `front` stands before the
    path of each request."""

    host: str
    port: int
    path: str | None
    front: str
    is_tls: bool

    @classmethod
    def parse(cls, address: str) -> Place:
        """Reads an address. Raises ValueError, whose `str()` is a sentence, for a wrong one."""
        if address.startswith(UNIX):
            return cls('localhost', 0, _unix_path(address), '', False)
        has_scheme = '://' in address
        try:
            parts = urllib.parse.urlsplit(address if has_scheme else f'http://{address}')
            host, port = parts.hostname or '', parts.port
        except ValueError:
            host, port, parts = '', None, urllib.parse.urlsplit('')
        if parts.scheme not in ('http', 'https') or not re.fullmatch(r'[\w.:%-]+', host, re.A):
            raise ValueError(f'{address[:200]!a} is not the address of a desk: write {FORMS}')
        if not re.fullmatch('[!-~]*', address) or parts.query or parts.fragment:
            raise ValueError(f'{address[:200]!a} has more than an address of a desk: {FORMS}')
        if '@' in parts.netloc:
            raise ValueError(f'{parts.hostname!a}: give the user by --user, not in the address')
        if port is None and not has_scheme:
            raise ValueError(f'{address!a} lacks the port: write {host}:8080, or https://{host}')
        is_tls = parts.scheme == 'https'
        usual = 443 if is_tls else 80
        return cls(host, usual if port is None else port, None, parts.path.rstrip('/'), is_tls)

    def header(self) -> str:
        """Returns the value of the header `Host`."""
        host = f'[{self.host}]' if ':' in self.host else self.host
        usual = 443 if self.is_tls else 80
        return host if self.path is not None or self.port == usual else f'{host}:{self.port}'


def _unix_path(address: str) -> str:
    """Reads an address that names a Unix socket, and returns the path."""
    path = address.removeprefix(UNIX)
    if not path or '\0' in path or len(path.encode(errors='surrogateescape')) > UNIX_PATH:
        rule = f'write unix:/PATH, with a path of at most {UNIX_PATH} bytes'
        raise ValueError(f'{address[:200]!a} is not the address of a desk: {rule}')
    return path


class Wire:
    """A connection, which `http.client` uses as its socket. It reads and sends only until the
    deadline of the present answer, and stays open until `end`."""

    def __init__(self, sock: socket.socket, ends: float) -> None:
        self._sock = sock
        self.begin(ends, 0)

    def begin(self, ends: float, allowed: int) -> None:
        """Begins an answer: its deadline, by `time.monotonic`, and the most bytes it may have."""
        self._ends, self.allowed = ends, allowed

    def sendall(self, data: bytes) -> None:
        """Sends all bytes."""
        view = memoryview(data)
        while view:
            self._sock.settimeout(left(self._ends))
            view = view[self._sock.send(view) :]

    def read_into(self, buffer: WriteableBuffer) -> int:
        """Reads what has come, at least a byte, and returns how much; 0 at the end."""
        if self.allowed <= 0:
            raise TooMuch
        self._sock.settimeout(left(self._ends))
        count = self._sock.recv_into(memoryview(buffer)[: self.allowed])
        self.allowed -= count
        return count

    def makefile(self, *_: Any) -> io.BufferedReader:
        """Returns a file that reads from the connection. Closing it leaves the connection open."""
        return io.BufferedReader(_Reader(self))

    def close(self) -> None:
        """Does nothing: `http.client` closes before the answer is read."""

    def end(self) -> None:
        """Closes the connection."""
        self._sock.close()


class _Reader(io.RawIOBase):
    """A file that reads from a connection."""

    def __init__(self, wire: Wire) -> None:
        super().__init__()
        self._wire = wire

    def readable(self) -> bool:
        return True

    def readinto(self, buffer: WriteableBuffer) -> int:
        return self._wire.read_into(buffer)


def left(ends: float) -> float:
    """Returns the seconds until a moment, and raises TimeoutError after it."""
    seconds = ends - time.monotonic()
    if seconds <= 0:
        raise TimeoutError('timed out')
    return seconds


def connect(
    place: Place,
    context: ssl.SSLContext | None,
    ends: float,
    check: Callable[[str], None] | None = None,
) -> Wire:
    """Connects to a place before the moment `ends`, or raises OSError. `check` is called with each
    address of the host, and raises OSError where it must not be connected to."""
    if place.path is not None:
        sock = socket.socket(socket.AF_UNIX, socket.SOCK_STREAM)
        return Wire(_connected(sock, place.path, ends), ends)
    fault: OSError = ConnectionError('the name has no address')
    for family, kind, protocol, _, at in _addresses(place.host, place.port, ends):
        try:
            if check is not None:
                check(str(at[0]))
            sock = _connected(socket.socket(family, kind, protocol), at, ends)
        except OSError as one:
            fault = one
            continue
        sock.setsockopt(socket.IPPROTO_TCP, socket.TCP_NODELAY, 1)
        return Wire(sock if context is None else _secured(sock, context, place.host, ends), ends)
    raise fault


def _connected(sock: socket.socket, at: Any, ends: float) -> socket.socket:
    """Connects a socket, and closes it where that fails."""
    try:
        sock.settimeout(left(ends))
        sock.connect(at)
    except BaseException:
        sock.close()
        raise
    return sock


def _secured(sock: socket.socket, context: ssl.SSLContext, host: str, ends: float) -> ssl.SSLSocket:
    """Begins TLS on a connection, and closes it where that fails."""
    try:
        sock.settimeout(left(ends))
        return context.wrap_socket(sock, server_hostname=host)
    except BaseException:
        sock.close()
        raise


def _addresses(host: str, port: int, ends: float) -> list[Any]:
    """Returns the addresses of a host. A name is looked up in a thread, since the C library waits
    for a name server without a deadline."""
    try:
        return socket.getaddrinfo(host, port, type=socket.SOCK_STREAM, flags=socket.AI_NUMERICHOST)
    except OSError:
        found: queue.SimpleQueue[Any] = queue.SimpleQueue()
    threading.Thread(target=_look_up, args=(host, port, found), daemon=True).start()
    try:
        result = found.get(timeout=left(ends))
    except queue.Empty:
        raise TimeoutError('timed out') from None
    if isinstance(result, Exception):
        raise result
    return list(result)


def _look_up(host: str, port: int, found: queue.SimpleQueue[Any]) -> None:
    """Puts the addresses of a host into a queue, or the exception."""
    try:
        found.put(socket.getaddrinfo(host, port, type=socket.SOCK_STREAM))
    except OSError as fault:
        found.put(fault)
    except ValueError:
        found.put(OSError('the name of the host is not one'))
