"""Waits for the lock, and then serves the file until the lock is lost or a signal comes."""
from __future__ import annotations

import asyncio
import contextlib
import json
import os
import shutil
import signal
import stat
import sys
import time
from collections.abc import Callable
from dataclasses import dataclass

from ..common.text import shown
from .lock import Lock, NotHeld, forget, holder_of
from .process import DeskEnded, Process
from .relay import Proofs, Relay

AGAIN = 0.2  # seconds from one attempt to the next
WAITING, STARTING, SERVING = 'waiting', 'starting', 'serving'

Say = Callable[[str], None]


def say(line: str) -> None:
    """Writes a line to standard error."""
    with contextlib.suppress(OSError):
        print(f'standby: {shown(line, 2000)}', file=sys.stderr, flush=True)


@dataclass(frozen=True)
class StandbySettings:
    """The arguments of `run`: the desk's program, file and port, the Unix socket for clients and
    its group, the file that says how `run` is, and the most seconds that a proof may take."""

    program: str
    db: str
    port: int
    socket: str
    group: str | None
    state: str | None
    patience: float


class StateFile:
    """Writes the file that says how this program is: a word, since when it is so, and when that was
    written, in seconds of the monotonic clock. The file is replaced as a whole."""

    def __init__(self, path: str | None) -> None:
        self.path = path
        self.word, self.since = '', 0.0
        self.held: float | None = None  # when the lock was taken

    def tell(self, word: str, why: str = '') -> None:
        """Writes that this program is as the word says, at this moment."""
        now = time.monotonic()
        if word != self.word:
            self.word, self.since = word, now
        if self.path is None:
            return
        members = {'state': word, 'since': self.since, 'at': now, 'why': why, 'pid': os.getpid()}
        text = json.dumps({**members, 'held': self.held})
        beside = f'{self.path}.new'
        with contextlib.suppress(OSError):
            with contextlib.suppress(FileNotFoundError):
                os.remove(beside)
            with open(beside, 'x', encoding='utf-8') as file:
                file.write(text)
            os.replace(beside, self.path)

    def remove(self) -> None:
        """Removes the file."""
        if self.path is not None:
            with contextlib.suppress(OSError):
                os.remove(self.path)


class Standby:
    """Serves a file while it has the lock of the file."""

    def __init__(self, settings: StandbySettings, write: Say = say) -> None:
        self.settings, self.write = settings, write
        self.lock = Lock(settings.db)
        self.state = StateFile(settings.state)
        self.process = Process(settings.program, settings.db, settings.port)
        self.relay: Relay | None = None
        self.last = ''

    def once(self, line: str) -> None:
        """Writes a line, unless it was the last one."""
        if line != self.last:
            self.last = line
            self.write(line)

    def why_not(self) -> str:
        """Tries to take the lock. Returns why that fails, or '' once it is taken."""
        try:
            if self.lock.take():
                return ''
            holder = holder_of(self.settings.db)
        except OSError as fault:
            self.lock.close()
            return f'the disk fails: {fault.strerror}: {self.settings.db}'
        return f'another machine has the desk: {holder or "it has not said which"}'

    async def wait(self) -> None:
        """Waits until it has the lock."""
        loop = asyncio.get_running_loop()
        while True:
            why = await loop.run_in_executor(None, self.why_not)
            if not why:
                self.state.held = time.monotonic()
                return
            self.once(why)
            self.state.tell(WAITING, why)
            await asyncio.sleep(AGAIN)

    async def start(self) -> None:
        """Starts the desk, and tries again where it ends: the desk of another machine may still
        have its own lock on the file."""
        loop = asyncio.get_running_loop()
        while True:
            try:
                await loop.run_in_executor(None, forget, self.settings.db)
                await self.process.start()
                return
            except DeskEnded as fault:
                if fault.status == 2:
                    raise
                self.once(str(fault))
            await asyncio.sleep(AGAIN)

    async def serve(self, proofs: Proofs) -> None:
        """Serves clients until the desk ends, and then raises `DeskEnded`."""
        self.relay = Relay(self.settings.port, proofs)
        path = self.settings.socket
        remove_socket(path)
        server = await asyncio.start_unix_server(self.relay.serve, path)
        try:
            if self.settings.group is not None:
                shutil.chown(path, group=self.settings.group)
            os.chmod(path, 0o660)
            self.last = ''
            self.write('serving')
            self.state.tell(SERVING)
            await self.process.end()
        finally:
            server.close()

    async def tell_of(self, proofs: Proofs) -> None:
        """Writes after each new proof of the lock that it was proved."""
        count = 0
        while True:
            if proofs.count != count:
                count = proofs.count
                self.state.tell(self.state.word)
            await asyncio.sleep(0.5)

    async def hold(self) -> None:
        """Starts and serves the desk while the lock can be proved; then raises why it ends."""
        proofs = Proofs(self.lock.prove, self.settings.patience)
        self.state.tell(STARTING)
        work = (proofs.run(), self.start_and_serve(proofs), self.tell_of(proofs))
        tasks = [asyncio.ensure_future(one) for one in work]
        done, _ = await asyncio.wait(tasks, return_when=asyncio.FIRST_COMPLETED)
        for one in done:
            one.result()

    async def start_and_serve(self, proofs: Proofs) -> None:
        """Starts the desk and serves it."""
        await self.start()
        await self.serve(proofs)

    def stop(self) -> None:
        """Removes the socket, closes the connections, and kills the desk. The lock is released as
        this program ends."""
        remove_socket(self.settings.socket)
        if self.relay is not None:
            self.relay.abort()
        self.process.kill()
        self.state.remove()

    async def run(self) -> int:
        """Runs until a signal comes or the lock or the desk is lost. Returns the status: 0 after a
        signal, 2 where the desk refuses its arguments, else 1."""
        over = asyncio.Event()
        loop = asyncio.get_running_loop()
        for number in (signal.SIGTERM, signal.SIGINT):
            loop.add_signal_handler(number, over.set)
        ended = asyncio.ensure_future(over.wait())
        work = asyncio.ensure_future(self.work())
        await asyncio.wait([ended, work], return_when=asyncio.FIRST_COMPLETED)
        self.stop()
        return work.result() if work.done() else 0

    async def work(self) -> int:
        """Waits for the lock, and serves while it is held. Returns the status."""
        try:
            await self.wait()
            await self.hold()
        except NotHeld as fault:
            self.write(f'the lock is lost: {fault}')
        except asyncio.TimeoutError:
            self.write(f'the lock could not be proved within {self.settings.patience:g} s')
        except DeskEnded as fault:
            self.write(str(fault))
            return 2 if fault.status == 2 else 1
        except OSError as fault:
            self.write(f'{self.settings.socket}: {fault.strerror}')
        return 1


def remove_socket(path: str) -> None:
    """Removes a socket that was left at a path; what is no socket stays."""
    with contextlib.suppress(OSError):
        if stat.S_ISSOCK(os.lstat(path).st_mode):
            os.remove(path)


def run(settings: StandbySettings) -> int:
    """Runs a standby, and ends this program at once, even where a thread waits for the disk."""
    standby = Standby(settings)
    loop = asyncio.new_event_loop()
    status = loop.run_until_complete(standby.run())
    sys.stdout.flush()
    sys.stderr.flush()
    os._exit(status)
