"""What goes wrong in a plant."""
from __future__ import annotations

from nulvrader.desk.client import NoAnswer

from .checks import Checked


class Troubled(Checked):
    """Makes trouble: programs are killed, vehicles restarted and stopped."""

    def kill_dispatcher(self) -> None:
        if self.mortal is not None:
            self.mortal.left = self.chance.randrange(60)

    def kill_desk(self) -> None:
        self.served.kill_soon(self.chance)
        self.day.counts['kills of the desk'] += 1

    def kill_gateway(self) -> None:
        self.gateways[self.chance.choice(sorted(self.gateways))].restart(
            self.chance.uniform(*self.plan.trouble.away)
        )
        self.day.counts['restarts of gateways'] += 1

    def restart_vehicle(self) -> None:
        """Restarts a vehicle that has an order, and has told the desk so."""
        found = [one for one in self.vehicles.values() if one.may_restart()]
        vehicle = self.chance.choice(found) if found else None
        try:
            if vehicle is not None and self.desk.vehicle(vehicle.key).confirmed is not None:
                vehicle.restart()
                self.day.counts['restarts of vehicles'] += 1
                self.say(f'{vehicle.name} is restarted, and has lost its order')
        except NoAnswer:
            pass

    def press_stop(self) -> None:
        """Presses the emergency stop of a vehicle that stands."""
        found = [one for one in self.vehicles.values() if one.goes_on() and not one.is_acting()]
        standing = [one for one in found if not one.node_is_left()]
        if standing:
            vehicle = self.chance.choice(standing)
            vehicle.press_stop(self.chance.uniform(*self.plan.trouble.stopped))
            self.day.counts['emergency stops'] += 1
            self.say(f'the emergency stop of {vehicle.name} is pressed')
