"""A plain desk to compare with: the model of the rules in `tests/model`, in Python over the SQLite
of C, with one commit a call over the same fourteen tables with the same indexes, by WAL with
`synchronous=FULL`. It reads requests from standard input, writes the answers to standard output,
and proves nothing; with a port it serves one connection instead.

    python3 bench/plain_desk.py FILE|:memory: [MILLIS] < requests
    python3 bench/plain_desk.py FILE|:memory: MILLIS PORT
"""
import os
import socket
import sys
from typing import Any

HERE = os.path.dirname(os.path.abspath(__file__))
sys.path[:0] = [os.path.join(HERE, '..', folder) for folder in ('', 'tools', 'examples')]

from tests.model.desk import AT, Model  # noqa: E402


def streams(port: int | None) -> tuple[Any, Any]:
    """Returns standard input and output, or those of one connection on the port."""
    if port is None:
        return sys.stdin.buffer, sys.stdout.buffer
    listener = socket.create_server(('127.0.0.1', port))
    print(f'listening on 127.0.0.1:{listener.getsockname()[1]}', flush=True)
    connection, _ = listener.accept()
    connection.setsockopt(socket.IPPROTO_TCP, socket.TCP_NODELAY, 1)
    return connection.makefile('rb'), connection.makefile('wb')


def main() -> None:
    path, now, port = [*sys.argv[1:], '', ''][:3]
    model = Model(path, int(now) if now else AT)
    model.serve(*streams(int(port) if port else None))


if __name__ == '__main__':
    main()
