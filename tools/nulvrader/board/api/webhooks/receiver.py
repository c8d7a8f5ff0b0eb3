"""Posts to a receiver. Its address comes from the configuration, but where the name leads does not:
no program of this machine and no neighbour without an address of its own is reached by it, a
redirect is not followed, and what it answers is read up to a limit of time and bytes."""
from __future__ import annotations

import http.client
import ipaddress
import re
import socket
import time
from dataclasses import dataclass

from .... import __version__
from ....common.text import shown
from ....desk import wire
from .config import Hook

HEAD = 16_384  # bytes of the head of an answer
BODY = 65_536  # bytes of its body that are read, and thrown away
SECONDS = 15.0  # for the whole of it
LONGEST = 3600  # seconds that a receiver may ask for


class NotAllowed(ConnectionError):
    """An address that a webhook must not reach."""


@dataclass(frozen=True)
class Result:
    """What came of a message: whether it was taken; if not, why, and after how many seconds the
    receiver wants it again, 0 where it says nothing."""

    taken: bool
    why: str = ''
    pause: int = 0


def check_address(text: str, loopback: bool) -> None:
    """Checks that an address may be reached; else raises `NotAllowed`."""
    at: ipaddress.IPv4Address | ipaddress.IPv6Address = ipaddress.ip_address(text.split('%')[0])
    if isinstance(at, ipaddress.IPv6Address):
        at = at.ipv4_mapped or at.sixtofour or _behind_64(at) or at
    if at.is_loopback or is_own(text):
        if not loopback:
            raise NotAllowed('its name leads to this machine, and loopback is not true')
    elif at.is_link_local or at.is_multicast or at.is_unspecified or at.is_reserved:
        raise NotAllowed('its name leads to an address that no receiver has')


def _behind_64(at: ipaddress.IPv6Address) -> ipaddress.IPv4Address | None:
    """Returns the address that NAT64 reaches by another one, or None."""
    is_one = at in ipaddress.IPv6Network('64:ff9b::/96')
    return ipaddress.IPv4Address(int(at) & 0xFFFFFFFF) if is_one else None


def is_own(text: str) -> bool:
    """Whether an address is one of this machine: what it would be reached from is the same. Nothing
    is sent."""
    family = socket.AF_INET6 if ':' in text else socket.AF_INET
    try:
        with socket.socket(family, socket.SOCK_DGRAM) as probe:
            probe.connect((text, 9))
            return bool(probe.getsockname()[0] == text)
    except OSError:
        return False


class Receiver:
    """Posts messages to one receiver, each on a connection of its own."""

    def __init__(self, hook: Hook) -> None:
        self.hook = hook
        self._context = wire.tls_context(hook.ca) if hook.place.is_tls else None

    def post(self, body: bytes, headers: dict[str, str]) -> Result:
        """Posts a message, and returns what came of it."""
        ends = time.monotonic() + SECONDS
        try:
            at = wire.connect(self.hook.place, self._context, ends, self._check)
        except OSError as fault:
            return Result(False, f'no connection: {why_of(fault)}')
        try:
            return self._exchange(at, body, headers, ends)
        except (OSError, http.client.HTTPException, ValueError) as fault:
            return Result(False, f'no answer: {why_of(fault)}')
        except wire.TooMuch:
            return Result(False, 'its answer is too long')
        finally:
            at.end()

    def _check(self, address: str) -> None:
        check_address(address, self.hook.loopback)

    def _exchange(self, at: wire.Wire, body: bytes, headers: dict[str, str], ends: float) -> Result:
        at.begin(ends, HEAD)
        connection = http.client.HTTPConnection('localhost')
        connection.auto_open = 0
        connection.sock = at
        own = {'Host': self.hook.place.header(), 'User-Agent': f'Nulvrader/{__version__}'}
        own |= {'Content-Type': 'application/json', 'Connection': 'close'}
        connection.request('POST', self.hook.target, body, {**own, **headers})
        with connection.getresponse() as answer:
            at.allowed += BODY
            result = result_of(answer.status, answer.headers.get('Retry-After'))
            if result.taken:
                answer.read(BODY)
            return result


def result_of(status: int, again: str | None) -> Result:
    """Returns what an answer says."""
    if 200 <= status < 300:
        return Result(True)
    pause = int(again) if again and re.fullmatch('[0-9]{1,6}', again) else 0
    what = ', a redirect, which is not followed' if 300 <= status < 400 else ''
    return Result(False, f'status {status}{what}', min(pause, LONGEST))


def why_of(fault: Exception) -> str:
    """Returns why something failed, in words that a log may have."""
    return shown(str(fault), 200) or type(fault).__name__
