"""Asks Corosync, Pacemaker and the system: the quorum, the fencing, the watchdog, the clock."""
from __future__ import annotations

import ctypes
import os
import re
import subprocess
import xml.etree.ElementTree as ElementTree
from dataclasses import dataclass

from ..common.plain_files import NotPlain, opened
from .gluster import LONGEST, SECONDS, Unknown

WATCHDOG = '/dev/watchdog'
SBD, SBD_TIMEOUT = '/etc/default/sbd', 5.0  # the settings of sbd, and its time where they say none
UNITS = {'': 1.0, 's': 1.0, 'sec': 1.0, 'ms': 0.001, 'msec': 0.001, 'm': 60.0, 'min': 60.0}
UNITS |= {'h': 3600.0, 'hr': 3600.0}
TIME_ERROR = 5  # adjtimex(2): the clock is not synchronized


def output_of(*words: str) -> str:
    """Runs a program, and returns what it prints, whatever its status. Raises `Unknown`."""
    try:
        done = subprocess.run(words, capture_output=True, timeout=SECONDS, check=False)
    except FileNotFoundError:
        raise Unknown(f'the program {words[0]} is not installed') from None
    except subprocess.TimeoutExpired:
        raise Unknown(f'{words[0]} has not answered within {SECONDS:g} s') from None
    return done.stdout[:LONGEST].decode(errors='replace')


@dataclass(frozen=True)
class Quorum:
    """How many votes Corosync expects, how many there are, and whether they are a majority."""

    expected: int
    total: int
    is_quorate: bool


def read_quorum(text: str) -> Quorum:
    """Reads what `corosync-quorumtool -s` prints."""
    words = dict(re.findall(r'^([A-Z][A-Za-z ]{0,30}):[ \t]+(\S{1,30})', text, re.M))
    counts = [words.get(name, '') for name in ('Expected votes', 'Total votes')]
    if not all(re.fullmatch('[0-9]{1,4}', count, re.A) for count in counts):
        raise Unknown('Corosync does not say how many votes there are: does it run?')
    return Quorum(int(counts[0]), int(counts[1]), words.get('Quorate') == 'Yes')


def read_properties(text: str) -> dict[str, str]:
    """Reads what `cibadmin --query --scope crm_config` prints: the properties of the cluster."""
    if '<!DOCTYPE' in text or '<!ENTITY' in text:
        raise Unknown('Pacemaker has answered what it never does')
    try:
        tree = ElementTree.fromstring(text)
    except (ElementTree.ParseError, ValueError):
        raise Unknown('Pacemaker does not answer: does it run?') from None
    return {one.get('name') or '': one.get('value') or '' for one in tree.iter('nvpair')}


def seconds_of(text: str) -> float:
    """Reads a time of the cluster, as `15s`, in seconds; 0 where it is none."""
    match = re.fullmatch('([0-9]{1,9})([a-z]*)', text.strip().lower(), re.A)
    return int(match[1]) * UNITS.get(match[2], 0.0) if match else 0.0


def sbd_timeout(path: str = SBD) -> float:
    """Returns after how many seconds without food the watchdog resets this machine."""
    try:
        with opened(path) as file:
            text = file.read(LONGEST).decode(errors='replace')
    except (OSError, NotPlain):
        text = ''
    found = re.findall('^SBD_WATCHDOG_TIMEOUT="?([0-9]{1,6})', text, re.M | re.A)
    return float(found[-1]) if found else SBD_TIMEOUT


def wrong_properties(found: dict[str, str], sbd: float = SBD_TIMEOUT) -> list[str]:
    """Returns what is wrong with the properties of the cluster; `sbd` is the time after which the
    watchdog resets a machine."""
    wrong = []
    if found.get('maintenance-mode', 'false').lower() in ('true', 'yes', 'on', '1'):
        wrong.append('the cluster is in maintenance: nothing moves the desk')
    if found.get('stonith-enabled', 'true').lower() not in ('true', 'yes', 'on', '1'):
        wrong.append(
            'fencing is off: a machine that hangs keeps the lock. Set stonith-enabled=true'
        )
    if found.get('no-quorum-policy', 'stop') not in ('stop', 'suicide'):
        wrong.append('no-quorum-policy has to be stop: a machine that is cut off keeps the address')
    watchdog = found.get('have-watchdog', 'false') == 'true'
    if found.get('stonith-watchdog-timeout', '0') not in ('0', '') and not watchdog:
        wrong.append('stonith-watchdog-timeout is set, and no sbd with a watchdog runs here')
    wait = seconds_of(found.get('stonith-watchdog-timeout', '0'))
    if 0 < wait <= 2 * sbd:
        wrong.append(
            f'stonith-watchdog-timeout is {wait:g} s, and has to be more than twice the '
            f'{sbd:g} s of SBD_WATCHDOG_TIMEOUT: a machine is taken for reset before it is'
        )
    return wrong


class _Timex(ctypes.Structure):
    """The struct that adjtimex(2) fills: its first member, and room for the rest."""

    _fields_ = [('modes', ctypes.c_uint), ('rest', ctypes.c_char * 512)]


def is_clock_set() -> bool:
    """Whether the system says that its clock is synchronized."""
    told: int = ctypes.CDLL(None, use_errno=True).adjtimex(ctypes.byref(_Timex()))
    return 0 <= told < TIME_ERROR


def has_watchdog() -> bool:
    """Whether there is a watchdog that resets this machine."""
    return os.path.exists(WATCHDOG)
