"""Makes sockets in a folder that nobody but the user and the group of the board may use."""
from __future__ import annotations

import contextlib
import os
import socket
import stat


def bound_to(path: str, kind: socket.SocketKind) -> socket.socket:
    """Returns a socket of this kind that is bound to `path`, where only the user and the group of
    the board may reach it. It replaces the socket of a board that was killed. Raises `OSError`
    where something else is at `path`, and leaves that untouched."""
    made = socket.socket(socket.AF_UNIX, kind)
    try:
        _remove_left(path, kind)
        before = os.umask(0o117)
        try:
            made.bind(path)
        finally:
            os.umask(before)
    except OSError:
        made.close()
        raise
    return made


def _remove_left(path: str, kind: socket.SocketKind) -> None:
    """Removes the socket at `path` that a killed board has left. A socket on which a program
    listens stays, and so does a file of any other kind."""
    with contextlib.suppress(FileNotFoundError):
        if not stat.S_ISSOCK(os.lstat(path).st_mode):
            return
        with socket.socket(socket.AF_UNIX, kind) as probe:
            try:
                probe.connect(path)
            except ConnectionRefusedError:
                os.unlink(path)
