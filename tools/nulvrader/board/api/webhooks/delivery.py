"""What is posted to a receiver, signed as the Standard Webhooks specification has it: HMAC with
SHA-256 over the id, the time and the body."""
from __future__ import annotations

import base64
import binascii
import hashlib
import hmac
import json
from collections.abc import Iterable
from dataclasses import dataclass
from typing import Any

FRONT = 'whsec_'
LEAST, GREATEST = 24, 64  # bytes of a secret


class BadSecret(ValueError):
    """A line is no secret. Its `str()` says why, without the line."""


@dataclass(frozen=True)
class Delivery:
    """A message: its id, which stays the same whenever it is sent again, its body, and the number
    of the event from which to go on behind it."""

    id: str
    body: bytes
    after: int


def delivery_of(record: str, events: list[dict[str, Any]], missed: bool, after: int) -> Delivery:
    """Returns the message of some events, of which there is at least one."""
    told = {'record': record, 'missed': missed, 'events': events}
    name = f'{record}-{events[0]["id"]}-{events[-1]["id"]}'
    return Delivery(name, json.dumps(told, separators=(',', ':')).encode('ascii'), after)


def secrets_of(text: str) -> tuple[bytes, ...]:
    """Returns the secrets of a file: one on each line, as `whsec_` and base64."""
    found = []
    for line in text.split():
        if not line.startswith(FRONT):
            raise BadSecret(f'a line does not begin with {FRONT}')
        try:
            secret = base64.b64decode(line.removeprefix(FRONT), validate=True)
        except binascii.Error:
            raise BadSecret(f'what is behind {FRONT} is no base64') from None
        if not LEAST <= len(secret) <= GREATEST:
            raise BadSecret(f'a secret has {LEAST} to {GREATEST} bytes')
        found.append(secret)
    if not 1 <= len(found) <= 4:
        raise BadSecret('it has 1 to 4 secrets, the newest first')
    return tuple(found)


def signature(secret: bytes, name: str, at: int, body: bytes) -> str:
    """Returns the signature of a message that is sent at a time, in seconds since 1970."""
    signed = f'{name}.{at}.'.encode() + body
    return 'v1,' + base64.b64encode(hmac.digest(secret, signed, hashlib.sha256)).decode()


def headers_of(delivery: Delivery, secrets: Iterable[bytes], at: int) -> dict[str, str]:
    """Returns the headers by which a receiver knows who has sent it."""
    signatures = (signature(secret, delivery.id, at, delivery.body) for secret in secrets)
    return {
        'webhook-id': delivery.id,
        'webhook-timestamp': str(at),
        'webhook-signature': ' '.join(signatures),
    }
