"""A desk without the lock of `tools/standby` and without its proofs, for the controls of
`bench/standby`: the desk's own lock alone keeps others from its file, and all that it answers goes
out."""
from __future__ import annotations

import asyncio
import os
import sys
import time

sys.path.insert(0, os.path.join(os.path.dirname(os.path.abspath(__file__)), '..', '..', 'tools'))

from nulvrader.standby.holder import remove_socket  # noqa: E402
from nulvrader.standby.process import DeskEnded, Process  # noqa: E402
from nulvrader.standby.relay import Proofs, Relay  # noqa: E402


async def serve(program: str, db: str, socket: str) -> None:
    """Serves until the desk ends."""
    process = Process(program, db, 8080)
    await process.start()
    began = time.monotonic()
    proofs = Proofs(lambda: None, 3600)
    remove_socket(socket)
    await asyncio.start_unix_server(Relay(8080, proofs).serve, socket)
    print(f'serving {began}', flush=True)
    await asyncio.gather(process.end(), proofs.run())


if __name__ == '__main__':
    try:
        asyncio.run(serve(*sys.argv[1:4]))
    except DeskEnded as fault:
        sys.exit(str(fault))
