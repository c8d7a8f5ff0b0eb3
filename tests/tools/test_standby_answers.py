"""Shows that an answer goes out only after a proof that began after it had come."""
from __future__ import annotations

import asyncio
import threading
import unittest

from nulvrader.standby.lock import NotHeld
from nulvrader.standby.relay import Proofs, Relay
from tests.support.programs import PATIENCE


class HeldBack(unittest.TestCase):
    """An answer goes out only after a proof that began after it had come."""

    def relay(
        self, prove: object, patience: float = PATIENCE
    ) -> tuple[bytes, BaseException | None]:
        """Asks a desk that answers at once behind a relay. Returns what came, and how the proofs
        ended."""

        async def answer(reader: asyncio.StreamReader, writer: asyncio.StreamWriter) -> None:
            await reader.read(1)
            self.events.append('answered')
            writer.write(b'answer')
            writer.close()

        async def ask() -> tuple[bytes, BaseException | None]:
            desk = await asyncio.start_server(answer, '127.0.0.1', 0)
            port = desk.sockets[0].getsockname()[1]
            proofs = Proofs(prove, patience)  # type: ignore[arg-type]
            relay = Relay(port, proofs)
            front = await asyncio.start_server(relay.serve, '127.0.0.1', 0)
            proving = asyncio.ensure_future(proofs.run())
            reader, writer = await asyncio.open_connection(*front.sockets[0].getsockname())
            writer.write(b'x')
            reading = asyncio.ensure_future(reader.read())
            await asyncio.wait([reading, proving], return_when=asyncio.FIRST_COMPLETED)
            fault = proving.exception() if proving.done() else None
            if fault is not None:
                relay.abort()
            found = (await asyncio.gather(reading, return_exceptions=True))[0]
            proving.cancel()
            writer.close()
            front.close()
            desk.close()
            return (found if isinstance(found, bytes) else b''), fault

        self.events: list[str] = []
        return asyncio.run(ask())

    def test_a_proof_after_the_answer(self) -> None:
        """The answer comes, and a proof was begun after it."""
        told, fault = self.relay(lambda: self.events.append('proof'))
        self.assertEqual((told, fault), (b'answer', None))
        self.assertIn('proof', self.events[self.events.index('answered') :])

    def test_no_proof(self) -> None:
        """Nothing comes where the lock is lost, though the desk has answered."""

        def prove() -> None:
            if 'answered' in self.events:
                raise NotHeld('lost')

        told, fault = self.relay(prove)
        self.assertEqual(told, b'')
        self.assertIsInstance(fault, NotHeld)

    def test_a_proof_that_began_before(self) -> None:
        """A proof that has begun before the answer is none for it."""
        begun, go, counts = threading.Event(), threading.Event(), [0]

        def prove() -> None:
            counts[0] += 1
            begun.set()
            go.wait(PATIENCE)

        async def ask() -> None:
            proofs = Proofs(prove, PATIENCE)
            proving = asyncio.ensure_future(proofs.run())
            first = asyncio.ensure_future(proofs.fresh())
            while not begun.is_set():
                await asyncio.sleep(0.01)
            second = asyncio.ensure_future(proofs.fresh())
            await asyncio.sleep(0)
            go.set()
            await first
            self.assertEqual((counts[0], second.done()), (1, False))
            await second
            self.assertEqual(counts[0], 2)
            proving.cancel()

        asyncio.run(ask())

    def test_a_proof_that_does_not_end(self) -> None:
        """A volume that hangs is a lock that is lost."""
        go = threading.Event()
        timer = threading.Timer(2, go.set)
        timer.start()
        told, fault = self.relay(lambda: go.wait(), patience=0.1)
        timer.cancel()
        go.set()
        self.assertEqual(told, b'')
        self.assertIsInstance(fault, asyncio.TimeoutError)


if __name__ == '__main__':
    unittest.main()
