"""A desk whose answers are counted, with how long they took."""
from __future__ import annotations

import time
from dataclasses import dataclass, field
from typing import Any

from ...desk.client import Answer, Desk, NoAnswer
from .meters import Counter, Histogram

OUTCOMES = ('answered', 'refused', 'failed', 'unanswered')
TIMES = (0.001, 0.0025, 0.005, 0.01, 0.025, 0.05, 0.1, 0.25, 0.5, 1, 2.5, 5, 10)


@dataclass
class DeskMeter:
    """What is counted of a desk. `last` is the moment of its last answer, in seconds since 1970, 0
    where there was none."""

    requests: Counter = field(
        default_factory=lambda: Counter(
            'desk_requests_total', 'Requests of the board to the desk, by how they ended'
        ).known('outcome', OUTCOMES)
    )
    times: Histogram = field(
        default_factory=lambda: Histogram(
            'desk_answer_seconds', 'How long the answers of the desk took', TIMES
        )
    )
    last: float = 0.0

    def answered(self, status: int, seconds: float) -> None:
        """Counts an answer."""
        outcome = 'answered' if status < 400 else 'refused' if status < 500 else 'failed'
        self.requests.add(outcome=outcome)
        self.times.add(seconds)
        self.last = time.time()


class WatchedDesk(Desk):
    """A client that counts."""

    def __init__(self, meter: DeskMeter, **options: Any) -> None:
        super().__init__(**options)
        self.meter = meter

    def ask(self, method: str, target: str, body: bytes | None = None) -> Answer:
        begun = time.monotonic()
        try:
            answer = super().ask(method, target, body)
        except NoAnswer:
            self.meter.requests.add(outcome='unanswered')
            raise
        self.meter.answered(answer.status, time.monotonic() - begun)
        return answer
