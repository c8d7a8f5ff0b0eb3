"""Who may ask the board: only pages of its own. A page of another site is refused by `Host`, by
`Origin`, by what the browser says of it and by a token that it can't read, and the board's own page
may load nothing from elsewhere."""
from __future__ import annotations

import hmac
import secrets
from collections.abc import Iterable, Mapping

from .messages import Line

TOKEN_HEADER = 'x-board-token'
POLICY = (
    "default-src 'self'; base-uri 'none'; form-action 'none'; frame-ancestors 'none'; "
    "object-src 'none'"
)
# On every answer.
HEADERS = {
    'Content-Security-Policy': POLICY,
    'X-Content-Type-Options': 'nosniff',
    'X-Frame-Options': 'DENY',
    'Referrer-Policy': 'no-referrer',
    'Cross-Origin-Opener-Policy': 'same-origin',
    'Cross-Origin-Resource-Policy': 'same-origin',
    'Cache-Control': 'no-store',
}
OTHER_SITES = (
    'cross-site',
    'same-site',
)  # what a browser says of a request that another origin makes


class Guard:
    """Knows by which names the board is asked: on its port of this machine, None where it has none,
    and as `names` has them, which a proxy passes on in `Host`. The token is of one run."""

    def __init__(self, port: int | None, names: Iterable[str]):
        own = () if port is None else (f'127.0.0.1:{port}', f'localhost:{port}')
        self.hosts = {*own, *(name.lower() for name in names)}
        self.token = secrets.token_urlsafe(24)

    def host_fault(self, headers: Mapping[str, str]) -> str | None:
        """Returns why a request is refused that names another host; None where it isn't."""
        host = headers.get('host', '').lower()
        return (
            None if host in self.hosts else f'This board does not answer to the name {host[:80]!a}.'
        )

    def site_fault(self, headers: Mapping[str, str]) -> str | None:
        """Returns why a request is refused that a page of another site makes, where the browser
        says so. A link may lead to the board."""
        if (
            headers.get('sec-fetch-site') not in OTHER_SITES
            or headers.get('sec-fetch-mode') == 'navigate'
        ):
            return None
        return 'The board answers only its own page.'

    def command_fault(self, headers: Mapping[str, str]) -> Line | None:
        """Returns why a command is refused: it has no origin of this board, or not its token."""
        scheme, _, host = headers.get('origin', '').lower().partition('://')
        if scheme not in ('http', 'https') or host not in self.hosts:
            return Line('page.only')
        if not hmac.compare_digest(headers.get(TOKEN_HEADER, '').encode(), self.token.encode()):
            return Line('page.restarted')
        return None
