"""The battery of a simulated vehicle."""
from __future__ import annotations

from typing import Any


class Battery:
    """A battery that lasts for `lasts` metres, and gets `gains` metres a second at a charger. It
    begins with a part of it."""

    def __init__(self, lasts: float, gains: float, part: float) -> None:
        self.lasts, self.gains, self.left = lasts, gains, lasts * part
        self.charging = False

    def charge(self) -> int:
        """Returns what is left in percent."""
        return max(0, int(100 * self.left / self.lasts))

    def stand(self, seconds: float, charging: bool) -> bool:
        """Charges it for so many seconds, if it is at a charger, or drains it. Whether its state is
        another."""
        before, self.charging = self.state(), charging
        if charging:
            self.left = min(self.lasts, self.left + seconds * self.gains)
        return self.state() != before

    def state(self) -> dict[str, Any]:
        """Returns it as a state message has it."""
        return {'batteryCharge': self.charge(), 'charging': self.charging}
