"""Code that stands in the place of functions of the C library in a program that is traced: of its
heap, which then gives no memory, and of its clock."""
from __future__ import annotations

from typing import Any
import errno
import struct
from collections.abc import Collection

# A function of the C library, and where it is.
Original = tuple[str, int]


class Heap:
    """From the `first` time on that the program asks the C library for memory it gets none: `times`
    times, or always. With no `first` the calls are only counted."""

    NAMES = {
        'malloc': 0,
        'calloc': 0,
        'realloc': 0,
        'reallocarray': 0,
        'aligned_alloc': 0,
        'memalign': 0,
        'posix_memalign': errno.ENOMEM,
        'valloc': 0,
        'pvalloc': 0,
    }

    def __init__(self, program: str, first: int | None = None, times: int | None = 1) -> None:
        self.entry, self.slots = slots_of(program)
        self.first, self.times = first, times

    def code(self, originals: list[Original]) -> tuple[list[int], bytes]:
        """The page that stands in the place of these functions: for each its code, and behind them
        the numbers it counts."""
        asked, left, given = 3072, 3080, 3088
        code = b''
        starts: list[int] = []
        for at, (name, original) in enumerate(originals):
            code = code.ljust((len(code) + 15) // 16 * 16, b'\xcc')
            start = len(code)
            starts.append(start)

            def beside(place: int, size: int) -> bytes:
                return struct.pack('<i', place - (start + len(body) + size))

            body = b'\xf3\x0f\x1e\xfa'  # endbr64
            body += b'\xf0\x48\xff\x05' + beside(asked, 8)  # lock inc [asked]
            body += b'\xf0\x48\xff\x0d' + beside(left, 8)  # lock dec [left]
            body += b'\x7e\x06'  # jle, over the next
            body += b'\xff\x25' + beside(3096 + 8 * at, 6)  # jmp [original]
            body += b'\xf0\x48\xff\x0d' + beside(given, 8)  # lock dec [given]
            body += b'\x7d\x06'  # jge, over the next
            body += b'\xff\x25' + beside(3096 + 8 * at, 6)  # jmp [original]
            body += (
                b'\xb8' + struct.pack('<i', self.NAMES[name]) + b'\xc3'
            )  # mov eax, the answer; ret
            code += body
        never = 1 << 62
        numbers = (0, self.first or never, never if self.times is None else self.times)
        tail = struct.pack('<3q', *numbers) + b''.join(
            struct.pack('<Q', original) for _, original in originals
        )
        return starts, code.ljust(3072, b'\xcc') + tail


class Clock:
    """The clock of the day shows so many seconds since 1970 whenever the program asks the C library
    for it; where they are None it can't be read. It is handed to `run` as a `Heap` is, and its
    calls are counted as those of the heap are. Other clocks go on.
    """

    NAMES = ('clock_gettime',)
    times: int | None = 0

    def __init__(self, program: str, seconds: Any) -> None:
        self.entry, self.slots = slots_of(program, self.NAMES)
        self.seconds = seconds

    def code(self, originals: list[Original]) -> tuple[list[int], bytes]:
        """The page that stands in the place of this function."""
        asked, left = 3072, 3096

        def beside(place: int, size: int) -> bytes:
            return struct.pack('<i', place - (len(code) + size))

        code = b'\xf3\x0f\x1e\xfa'  # endbr64
        code += b'\x85\xff\x74\x06'  # test edi, edi; jz, over the next: 0 is the clock of the day
        code += b'\xff\x25' + beside(left, 6)  # jmp [original]
        code += b'\xf0\x48\xff\x05' + beside(asked, 8)  # lock inc [asked]
        if self.seconds is None:
            code += b'\xb8' + struct.pack('<i', -1) + b'\xc3'  # mov eax, -1; ret
        else:
            code += b'\x48\xb8' + struct.pack('<q', self.seconds)  # mov rax, seconds
            code += b'\x48\x89\x06\x48\xc7\x46\x08' + bytes(
                4
            )  # mov [rsi], rax; mov qword [rsi + 8], 0
            code += b'\x31\xc0\xc3'  # xor eax, eax; ret
        tail = struct.pack('<3q', 0, 0, 0) + struct.pack('<Q', originals[0][1])
        return [0] * len(originals), code.ljust(asked, b'\xcc') + tail


def slots_of(
    program: str, names: Collection[str] = tuple(Heap.NAMES)
) -> tuple[int, dict[int, str]]:
    """Where an ELF file of x86-64 begins, and where its table of imports has these functions, or
    those of the heap."""
    with open(program, 'rb') as file:
        data = file.read()
    if data[:5] != b'\x7fELF\x02':
        raise ValueError(f'{program} is no ELF file of 64 bits')
    entry, at = struct.unpack_from('<QQ', data, 24)
    size, count = struct.unpack_from('<HH', data, 54)
    parts = [struct.unpack_from('<IIQQQQQQ', data, at + size * n) for n in range(count)]

    def place(address: int) -> int:
        for kind, _, offset, start, _, length, _, _ in parts:
            if kind == 1 and start <= address < start + length:
                return int(offset + address - start)
        raise ValueError('no such address')

    dynamic: dict[int, int] = {}
    for kind, _, offset, _, _, length, _, _ in parts:
        if kind == 2:
            for n in range(0, length, 16):
                tag, value = struct.unpack_from('<qQ', data, offset + n)
                dynamic.setdefault(tag, value)
    slots: dict[int, str] = {}
    for table, length in ((23, 2), (7, 8)):
        if table not in dynamic:
            continue
        for n in range(0, dynamic[length], 24):
            where, info, _ = struct.unpack_from('<QQq', data, place(dynamic[table]) + n)
            if info & 0xFFFFFFFF in (6, 7):
                (name,) = struct.unpack_from('<I', data, place(dynamic[6]) + 24 * (info >> 32))
                begin = place(dynamic[5]) + name
                text = data[begin : data.index(b'\0', begin)].decode()
                if text in names:
                    slots[where] = text
    return int(entry), slots
