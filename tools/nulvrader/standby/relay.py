"""Passes connections on to a desk. An answer is passed back only after a proof that this machine
held the lock when the answer was written."""
from __future__ import annotations

import asyncio
import contextlib
from collections.abc import Callable

PART = 65_536  # bytes that are read at once
MOST = 256  # the most connections at once
EVERY = 1.0  # seconds from one proof to the next, while nobody waits for one


class Proofs:
    """Proves again and again that the lock is held, each time for all that wait when the proof
    begins. `prove` raises an exception where the lock is not held; it may wait for the disk, so it
    runs in a thread."""

    def __init__(self, prove: Callable[[], None], patience: float) -> None:
        self.prove, self.patience = prove, patience
        self.waiting: list[asyncio.Future[None]] = []
        self.wanted = asyncio.Event()
        self.count = 0

    async def fresh(self) -> None:
        """Returns after a proof that has begun after this call."""
        future: asyncio.Future[None] = asyncio.get_running_loop().create_future()
        self.waiting.append(future)
        self.wanted.set()
        await future

    async def run(self) -> None:
        """Runs until a proof fails, and raises its exception, or until one takes longer than the
        patience, and raises TimeoutError."""
        loop = asyncio.get_running_loop()
        while True:
            with contextlib.suppress(asyncio.TimeoutError):
                await asyncio.wait_for(self.wanted.wait(), EVERY)
            self.wanted.clear()
            waiting, self.waiting = self.waiting, []
            proof = loop.run_in_executor(None, self.prove)
            await asyncio.wait_for(asyncio.shield(proof), self.patience)
            self.count += 1
            for future in waiting:
                if not future.done():
                    future.set_result(None)


class Relay:
    """Passes the connections of clients on to the port of a desk on this machine."""

    def __init__(self, port: int, proofs: Proofs) -> None:
        self.port, self.proofs = port, proofs
        self.open: set[asyncio.StreamWriter] = set()

    async def serve(self, client: asyncio.StreamReader, answers: asyncio.StreamWriter) -> None:
        """Serves a client's connection until it ends."""
        if len(self.open) >= MOST:
            answers.transport.abort()
            return
        self.open.add(answers)
        try:
            desk, requests = await asyncio.open_connection('127.0.0.1', self.port, limit=PART)
            try:
                await self.carry(client, answers, desk, requests)
            finally:
                requests.transport.abort()
        except OSError:
            pass
        finally:
            self.open.discard(answers)
            answers.close()

    async def carry(
        self,
        client: asyncio.StreamReader,
        answers: asyncio.StreamWriter,
        desk: asyncio.StreamReader,
        requests: asyncio.StreamWriter,
    ) -> None:
        """Passes requests and answers on until the desk or the client closes its connection."""
        up = asyncio.ensure_future(self.send(client, requests))
        try:
            while True:
                part = await desk.read(PART)
                if not part:
                    return
                await self.proofs.fresh()
                answers.write(part)
                await answers.drain()
        finally:
            up.cancel()
            with contextlib.suppress(asyncio.CancelledError, OSError):
                await up

    async def send(self, client: asyncio.StreamReader, requests: asyncio.StreamWriter) -> None:
        """Passes what a client sends on to the desk."""
        while True:
            part = await client.read(PART)
            if not part:
                requests.write_eof()
                return
            requests.write(part)
            await requests.drain()

    def abort(self) -> None:
        """Closes all connections at once, and drops what was not sent."""
        for writer in list(self.open):
            writer.transport.abort()
