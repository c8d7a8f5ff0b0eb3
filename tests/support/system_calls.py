"""The numbers of the system calls that tests stop, and what a program is told of one in its
place."""
from __future__ import annotations

NUMBERS = {
    'read': 0,
    'write': 1,
    'open': 2,
    'close': 3,
    'stat': 4,
    'fstat': 5,
    'lstat': 6,
    'lseek': 8,
    'mmap': 9,
    'brk': 12,
    'pread64': 17,
    'pwrite64': 18,
    'readv': 19,
    'writev': 20,
    'mremap': 25,
    'accept': 43,
    'sendto': 44,
    'recvfrom': 45,
    'sendmsg': 46,
    'recvmsg': 47,
    'setsockopt': 54,
    'fcntl': 72,
    'fsync': 74,
    'fdatasync': 75,
    'truncate': 76,
    'ftruncate': 77,
    'rename': 82,
    'unlink': 87,
    'fchmod': 91,
    'fchown': 93,
    'fadvise64': 221,
    'openat': 257,
    'newfstatat': 262,
    'unlinkat': 263,
    'renameat': 264,
    'readlinkat': 267,
    'sync_file_range': 277,
    'fallocate': 285,
    'accept4': 288,
    'preadv': 295,
    'pwritev': 296,
    'renameat2': 316,
    'getrandom': 318,
    'copy_file_range': 326,
    'preadv2': 327,
    'pwritev2': 328,
    'statx': 332,
}
NAMES = {number: name for name, number in NUMBERS.items()}

# Calls whose first word is a descriptor, and those with a path, and where it stands.
OF_A_FILE = {
    'read',
    'write',
    'close',
    'fstat',
    'lseek',
    'pread64',
    'pwrite64',
    'readv',
    'writev',
    'accept',
    'sendto',
    'recvfrom',
    'sendmsg',
    'recvmsg',
    'setsockopt',
    'fcntl',
    'fsync',
    'fdatasync',
    'ftruncate',
    'fchmod',
    'fchown',
    'fadvise64',
    'sync_file_range',
    'fallocate',
    'accept4',
    'preadv',
    'pwritev',
    'preadv2',
    'pwritev2',
    'copy_file_range',
}
OF_A_PATH = {
    'open': 0,
    'stat': 0,
    'lstat': 0,
    'truncate': 0,
    'rename': 0,
    'unlink': 0,
    'openat': 1,
    'newfstatat': 1,
    'unlinkat': 1,
    'renameat': 1,
    'readlinkat': 1,
    'renameat2': 1,
    'statx': 1,
}


class Fails:
    """The call isn't made, and fails by this error."""

    def __init__(self, error: int) -> None:
        self.error = error


class Gives:
    """The call isn't made, and gives this number: 0 for an end or for nothing taken, its size for a
    write that is dropped."""

    def __init__(self, value: int) -> None:
        self.value = value


class Short:
    """The call is made with so many bytes at most."""

    def __init__(self, size: int) -> None:
        self.size = size
