"""Runs the desk as a child of this program, which dies with it."""
from __future__ import annotations

import asyncio
import contextlib
import ctypes
import signal

from ..common.text import shown

LISTENING = b'listening on '
SET_PARENT_DEATH_SIGNAL = 1  # prctl(2), PR_SET_PDEATHSIG
FOREVER = '4294967295'
OUTPUT = 2000  # the most bytes of a desk's output that are kept


class DeskEnded(Exception):
    """The desk has ended, with this status. Its `str()` has what the desk printed last."""

    def __init__(self, status: int, said: bytes) -> None:
        text = shown(said.decode(errors='replace').strip(), OUTPUT)
        super().__init__(f'the desk has ended with status {status}: {text or "it said nothing"}')
        self.status = status


def _die_with_parent() -> None:
    """Makes the system kill this process once its parent has ended."""
    ctypes.CDLL(None).prctl(SET_PARENT_DEATH_SIGNAL, signal.SIGKILL, 0, 0, 0)


class Process:
    """A desk over a file, on a port of this machine."""

    def __init__(self, program: str, db: str, port: int) -> None:
        self.words = [program, 'serve', '--db', db, '--port', str(port), '--connections', FOREVER]
        self.child: asyncio.subprocess.Process | None = None
        self.said = b''

    async def start(self) -> None:
        """Starts the desk, and waits until it listens. Raises `DeskEnded` where it ends before."""
        self.said = b''
        pipe = asyncio.subprocess.PIPE
        self.child = await asyncio.create_subprocess_exec(
            *self.words,
            stdin=asyncio.subprocess.DEVNULL,
            stdout=pipe,
            stderr=asyncio.subprocess.STDOUT,
            preexec_fn=_die_with_parent,
        )
        assert self.child.stdout is not None
        line = await self.child.stdout.readline()
        if not line.startswith(LISTENING):
            self.said = line
            await self.end()

    async def end(self) -> None:
        """Waits until the desk has ended, and raises `DeskEnded`."""
        assert self.child is not None and self.child.stdout is not None
        while True:
            part = await self.child.stdout.read(OUTPUT)
            if not part:
                break
            self.said = (self.said + part)[-OUTPUT:]
        raise DeskEnded(await self.child.wait(), self.said)

    def kill(self) -> None:
        """Kills the desk at once. Each call that it has answered is in the file."""
        if self.child is not None and self.child.returncode is None:
            with contextlib.suppress(ProcessLookupError):
                self.child.kill()
