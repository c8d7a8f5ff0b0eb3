"""A program that holds the lock of its own memory for ever: a page of a file system of its own
never comes, and a thread waits for it in the middle of a change of the memory. Whoever reads the
command line of the program in /proc waits for that lock. It needs no rights. It listens on a port,
and prints a line once it is so. It ends by itself, since `ps` waits for it, too."""
from __future__ import annotations

import ctypes
import os
import signal
import socket
import struct
import sys
import tempfile
import threading
import time

LIBC = ctypes.CDLL(None, use_errno=True)
LIBC.mmap.restype = ctypes.c_void_p
LIBC.mmap.argtypes = [
    ctypes.c_void_p,
    ctypes.c_size_t,
    ctypes.c_int,
    ctypes.c_int,
    ctypes.c_int,
    ctypes.c_long,
]
CLONE_NEWUSER, CLONE_NEWNS = 0x10000000, 0x00020000
PROT_READ, MAP_PRIVATE = 1, 2
PR_SET_PDEATHSIG = 1
LIFE = 150  # seconds after which all go on, if nobody has ended this program
PAGE = 4096
SIZE = 1 << 20  # bytes of the file
# What the kernel asks of a file system.
LOOKUP, FORGET, GETATTR, OPEN, READ, FLUSH, INIT = 1, 2, 3, 14, 15, 25, 26


def attributes(node: int) -> bytes:
    """Returns what a folder, the first node, and the file in it are."""
    mode = 0o40755 if node == 1 else 0o100644
    return struct.pack('<6Q3I7I', node, SIZE, 8, 0, 0, 0, 0, 0, 0, mode, 1, 0, 0, 0, PAGE, 0)


def serve(device: int) -> None:
    """Answers all that the kernel asks but for the bytes of the file."""
    opened = 0
    while True:
        data = os.read(device, 1 << 20)
        _, kind, number, node = struct.unpack('<IIQQ', data[:24])
        answer = b''
        if kind == INIT:
            answer = struct.pack('<4IHHIIHH8I', 7, 31, PAGE, 0, 2, 1, PAGE, 1, 1, 0, *[0] * 8)
        elif kind == LOOKUP:
            answer = struct.pack('<4Q2I', 2, 1, 3600, 3600, 0, 0) + attributes(2)
        elif kind == GETATTR:
            answer = struct.pack('<QII', 3600, 0, 0) + attributes(node)
        elif kind == OPEN:
            opened += 1  # the second time as a file whose pages are not kept
            answer = struct.pack('<QII', opened, opened - 1, 0)
        elif kind in (READ, FORGET):
            continue
        os.write(device, struct.pack('<IiQ', 16 + len(answer), 0, number) + answer)


def check(status: int) -> None:
    """Raises an error where a call of the C library has failed."""
    if status:
        raise OSError(ctypes.get_errno(), os.strerror(ctypes.get_errno()))


def mount() -> str:
    """Mounts the file system in namespaces of its own, and returns the path of its file."""
    user, group = os.getuid(), os.getgid()
    check(LIBC.unshare(CLONE_NEWUSER | CLONE_NEWNS))
    for name, line in (
        ('uid_map', f'0 {user} 1'),
        ('setgroups', 'deny'),
        ('gid_map', f'0 {group} 1'),
    ):
        with open(f'/proc/self/{name}', 'w') as file:
            file.write(line)
    folder = tempfile.mkdtemp()
    device = os.open('/dev/fuse', os.O_RDWR)
    said = f'fd={device},rootmode=40000,user_id=0,group_id=0'
    check(LIBC.mount(b'stuck', folder.encode(), b'fuse', 6, said.encode()))
    if os.fork() == 0:
        check(LIBC.prctl(PR_SET_PDEATHSIG, signal.SIGKILL))
        signal.alarm(LIFE)
        serve(device)
    os.close(device)
    return os.path.join(folder, 'file')


def mapped(handle: int) -> int:
    """Maps a page of a file into memory."""
    found = LIBC.mmap(None, PAGE, PROT_READ, MAP_PRIVATE, handle, 0)
    assert isinstance(found, int)
    return found


def hold(first: int, second: int) -> None:
    """Takes the lock, and keeps it."""
    place, room = mapped(first), ctypes.create_string_buffer(1)
    words = (room, ctypes.c_void_p(place), 1)
    threading.Thread(target=LIBC.memcpy, args=words, daemon=True).start()
    time.sleep(0.5)
    os.write(1, b'listens\n')
    mapped(second)


def main() -> None:
    path = mount()
    first, second = (os.open(path, os.O_RDONLY) for _ in range(2))
    with socket.create_server(('127.0.0.1', int(sys.argv[1]))):
        hold(first, second)


if __name__ == '__main__':
    main()
