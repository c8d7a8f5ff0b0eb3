"""Asks GlusterFS for a volume, by `gluster --xml`, and reads the options that the volume must have.
The answers are read within bounds: the names in them may be anybody's."""
from __future__ import annotations

import os
import re
import subprocess
import xml.etree.ElementTree as ElementTree
from dataclasses import dataclass, field

from ..common import processes
from ..common.plain_files import opened

HERE = os.path.dirname(os.path.abspath(__file__))
OPTIONS = os.path.normpath(os.path.join(HERE, '../../../examples/standby/volume.options'))
DAEMON = '/etc/glusterfs/glusterd.vol'
LONGEST = 1_000_000  # bytes of an answer, and of a file of options
SECONDS = 60.0
COMMAND = ('gluster', '--mode=script', '--xml')


class Unknown(Exception):
    """What was asked is not known. Its `str()` says why."""


@dataclass(frozen=True)
class Brick:
    """A copy of the volume: its name, whether it is online, and whether its daemon knows its port.
    GlusterFS 10.3 forgets that where it has started a copy twice at once, as after a cut: then who
    was connected stays so, and nobody else reaches the copy."""

    name: str
    is_online: bool
    has_port: bool = True


@dataclass
class Volume:
    """A volume, as GlusterFS has it."""

    kind: str
    status: str
    replicas: int
    arbiters: int
    bricks: list[str] = field(default_factory=list)
    options: dict[str, str] = field(default_factory=dict)


def volume_name(word: str) -> str:
    """Reads the name of a volume from the command line."""
    if not re.fullmatch('[A-Za-z0-9_][A-Za-z0-9_-]{0,63}', word, re.A):
        raise ValueError(word)
    return word


def read_options(path: str) -> dict[str, str]:
    """Reads a file of options: each line has an option and its value. Comments begin with `#`."""
    with opened(path) as file:
        text = file.read(LONGEST).decode()
    found: dict[str, str] = {}
    for number, line in enumerate(text.splitlines(), 1):
        words = line.partition('#')[0].split()
        if not words:
            continue
        if len(words) != 2 or not all(re.fullmatch('[A-Za-z0-9._-]+', word) for word in words):
            raise ValueError(f'{path}, line {number}: an option and its value')
        if words[0] in found:
            raise ValueError(f'{path}, line {number}: {words[0]} stands there twice')
        found[words[0]] = words[1]
    return found


def ask(*words: str) -> ElementTree.Element:
    """Runs a command of `gluster`, and returns its answer. Raises `Unknown`."""
    try:
        line = [*COMMAND, *words]
        done = subprocess.run(line, capture_output=True, timeout=SECONDS, check=False)
    except FileNotFoundError:
        raise Unknown('the program gluster is not installed') from None
    except subprocess.TimeoutExpired:
        raise Unknown(f'gluster has not answered within {SECONDS:g} s') from None
    return parse(done.stdout)


def parse(data: bytes) -> ElementTree.Element:
    """Reads an answer. Raises `Unknown` where it is not XML, or says that the command failed."""
    if len(data) > LONGEST or b'<!DOCTYPE' in data or b'<!ENTITY' in data:
        raise Unknown('gluster has answered what it never does')
    try:
        found = ElementTree.fromstring(data)
    except (ElementTree.ParseError, ValueError):
        raise Unknown('gluster has answered no XML: does glusterd run, and is this root?') from None
    if found.findtext('opRet') != '0':
        raise Unknown(found.findtext('opErrstr') or 'gluster has failed')
    return found


def number_of(parent: ElementTree.Element, name: str) -> int:
    """Returns the number in a child of this name, or raises `Unknown`."""
    text = parent.findtext(name) or ''
    if not re.fullmatch('[0-9]{1,9}', text, re.A):
        raise Unknown(f'gluster has not said {name}')
    return int(text)


def read_volume(answer: ElementTree.Element, name: str) -> Volume:
    """Reads the answer of `volume info NAME`."""
    for one in answer.iter('volume'):
        if one.findtext('name') == name:
            found = Volume(
                one.findtext('typeStr') or '',
                one.findtext('statusStr') or '',
                number_of(one, 'replicaCount'),
                number_of(one, 'arbiterCount'),
            )
            found.bricks = [brick.findtext('name') or '' for brick in one.iter('brick')]
            for option in one.iter('option'):
                found.options[option.findtext('name') or ''] = option.findtext('value') or ''
            return found
    raise Unknown(f'there is no volume {name}')


def read_bricks(answer: ElementTree.Element) -> list[Brick]:
    """Reads the answer of `volume status NAME`: the copies, without the helper processes."""
    found = []
    for node in answer.iter('node'):
        path = node.findtext('path') or ''
        if path.startswith('/'):
            name = f'{node.findtext("hostname") or ""}:{path}'
            is_online, has_port = node.findtext('status') == '1', node.findtext('port') != 'N/A'
            found.append(Brick(name, is_online, has_port))
    return found


def read_unhealed(answer: ElementTree.Element) -> dict[str, int | None]:
    """Reads the answer of `volume heal NAME info`: for each copy how many entries are to be healed,
    or None where that is not known."""
    found: dict[str, int | None] = {}
    for brick in answer.iter('brick'):
        count = brick.findtext('numberOfEntries') or ''
        known = re.fullmatch('[0-9]{1,9}', count, re.A)
        found[brick.findtext('name') or ''] = int(count) if known else None
    return found


@dataclass
class Client:
    """The connection of a mount to a copy: whether it is there, and how many of the open files are
    closed at this copy. With `client.strict-locks` a file that was locked is not opened again at a
    copy that comes back."""

    name: str
    is_connected: bool = False
    closed: int = 0


def read_clients(text: str) -> list[Client]:
    """Reads what a mount says of its connections (`.meta/graphs/active/*-client-*/private`)."""
    found: list[Client] = []
    for line in text.splitlines():
        head = re.fullmatch(
            r'\[xlator\.protocol\.client\.([A-Za-z0-9_-]{1,80})\.priv\]', line, re.A
        )
        if head:
            found.append(Client(head.group(1)))
            continue
        name, _, value = (part.strip() for part in line.partition('='))
        if found and name == 'connected':
            found[-1].is_connected = value == '1'
        elif found and re.fullmatch(r'fd\.[0-9]+\.remote_fd', name, re.A):
            found[-1].closed += value == '-1'
    return found


def flags_of(place: str) -> list[str] | None:
    """Returns the words of the program that serves a mount; None where none is seen. Others than
    root may call their programs so."""
    for pid in filter(str.isdigit, os.listdir('/proc')):
        words = (processes.words_of(int(pid), LONGEST) or b'').decode(errors='replace').split('\0')
        if os.path.basename(words[0]) == 'glusterfs' and place in words:
            return words
    return None
