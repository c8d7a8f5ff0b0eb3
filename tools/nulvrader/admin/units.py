"""Starts and stops the units of an installed desk, by systemd."""
from __future__ import annotations

import os
import subprocess

FRONT = 'nulvrader-'
DESK = 'nulvrader-desk.service'
GATEWAY = 'nulvrader-gateway.service'
SOCKET = 'nulvrader-proxy.socket'
TIMER = 'nulvrader-backup.timer'
# While this file is there, the units of the dispatcher, the gateway and the board are not started,
# not even at a boot: a copy is being put back, and the desk does not know where the vehicles are.
MARK = '/var/lib/nulvrader/restore-begun'


class AdminError(Exception):
    """A command for an installed desk can't be carried out. Its `str()` is a sentence that says
    why."""


def beside(values: dict[str, str]) -> list[str]:
    """Returns the units that run beside the desk by the configuration."""
    names = values.get('NULVRADER_UNITS', 'board dispatch').split()
    return [f'{FRONT}{name}.service' for name in names]


def runs() -> bool:
    """Whether systemd runs this machine."""
    return os.path.isdir('/run/systemd/system')


def want_root() -> None:
    """Raises `AdminError` if systemd runs, and this user is not root."""
    if runs() and os.geteuid() != 0:
        raise AdminError('run it as root')


def want_no_restore() -> None:
    """Raises `AdminError` if a copy is being put back."""
    if os.path.lexists(MARK):
        text = (
            'a copy is being put back: go on by nulvrader restore --from STEP, or begin by --from 1'
        )
        raise AdminError(f'{text} ({MARK})')


def is_enabled(unit: str) -> bool:
    """Whether a unit is started at each boot."""
    command = ['systemctl', '--quiet', 'is-enabled', unit]
    return subprocess.run(command, check=False, stderr=subprocess.DEVNULL).returncode == 0


def systemctl(*words: str) -> None:
    """Runs `systemctl`, and raises `AdminError` if it fails."""
    done = subprocess.run(['systemctl', *words], check=False)
    if done.returncode:
        raise AdminError(f'systemctl {" ".join(words)} has failed')
