"""Runs a program under ptrace, by ctypes, and stops it before chosen system calls: what is told
of each of them may let it go on, end the program before it, or make it fail, be short, or be
dropped. Besides, the program's calls of the C library's heap are counted, and one of them, or
all from one on, get no memory.

Only the chosen calls stop the program: a filter of seccomp names them. Of Linux on x86-64 alone;
`lacks` says why it can't be had elsewhere. Threads of the program are followed, and so is a script
that becomes the program by `exec`."""
from __future__ import annotations

import ctypes
import errno
import os
import platform
import signal
import struct
import sys
import threading
from collections.abc import Callable, Collection, Iterable, Sequence
from typing import Any, NoReturn

from tests.support.heap import Clock, Heap
from tests.support.system_calls import Gives, NAMES, NUMBERS, OF_A_FILE, OF_A_PATH, Short

# What a call may be told instead of being let go on, which is None.
STOP = 'stop'
TRACEME, POKEUSER, CONT, GETREGS, SETREGS, SETOPTIONS, GETEVENTMSG = 0, 6, 7, 12, 13, 0x4200, 0x4201
EVENT_FORK, EVENT_VFORK, EVENT_CLONE, EVENT_EXEC, EVENT_EXIT, EVENT_SECCOMP = 1, 2, 3, 4, 6, 7
OPTIONS = (
    sum(
        1 << event
        for event in (EVENT_FORK, EVENT_VFORK, EVENT_CLONE, EVENT_EXEC, EVENT_EXIT, EVENT_SECCOMP)
    )
    | 1 << 20
)
WALL = 0x40000000

# Places of registers in the kernel's list of 27.
REG_R10, REG_R9, REG_R8, RAX, RDX, RSI, RDI, ORIG_RAX, RIP = 7, 8, 9, 10, 12, 13, 14, 15, 16
Registers = ctypes.c_ulonglong * 27


def _library() -> ctypes.CDLL:
    found = ctypes.CDLL(None, use_errno=True)
    found.ptrace.restype = ctypes.c_long
    found.ptrace.argtypes = [ctypes.c_long, ctypes.c_long, ctypes.c_void_p, ctypes.c_void_p]
    found.prctl.argtypes = [ctypes.c_int] + [ctypes.c_ulong] * 4
    return found


LIBC: Any = _library() if sys.platform == 'linux' else None


def ptrace(request: int, pid: int, address: int = 0, data: int = 0) -> None:
    if LIBC.ptrace(request, pid, address, data) < 0:
        number = ctypes.get_errno()
        raise OSError(number, f'ptrace {request:#x}: {os.strerror(number)}')


def _filter(names: Collection[str]) -> bytes:
    """The program of seccomp's filter: a call of these names stops, every other one goes on."""
    numbers = sorted(NUMBERS[name] for name in names)
    lines = [(0x20, 0, 0, 4), (0x15, 0, len(numbers) + 1, 0xC000003E), (0x20, 0, 0, 0)]
    lines += [(0x15, len(numbers) - at, 0, number) for at, number in enumerate(numbers)]
    lines += [(0x06, 0, 0, 0x7FFF0000), (0x06, 0, 0, 0x7FF00000)]
    return b''.join(struct.pack('<HBBI', *line) for line in lines)


class Call:
    """A system call that the program is about to make."""

    def __init__(self, pid: int, registers: Any) -> None:
        self.pid = pid
        self.name = NAMES[registers[ORIG_RAX]]
        self.words = [registers[at] for at in (RDI, RSI, RDX, REG_R10, REG_R8, REG_R9)]
        self.file = self.words[0] if self.name in OF_A_FILE else None

    @property
    def path(self) -> str:
        """The file that the call is on; a path as the program has it, or where the descriptor
        leads."""
        if self.name in OF_A_PATH:
            return os.fsdecode(self._text(self.words[OF_A_PATH[self.name]]))
        if self.file is None:
            return ''
        try:
            return os.readlink(f'/proc/{self.pid}/fd/{self.file}')
        except OSError:
            return ''

    @property
    def size(self) -> Any:
        """The bytes that a read or a write is about."""
        return self.words[2]

    @property
    def data(self) -> bytes:
        """The bytes that are to be written."""
        return self._memory(self.words[1], self.size)

    def _memory(self, at: int, size: int) -> bytes:
        with open(f'/proc/{self.pid}/mem', 'rb', 0) as memory:
            return os.pread(memory.fileno(), size, at)

    def _text(self, at: int) -> bytes:
        data = b''
        while b'\0' not in data:
            data += self._memory(at + len(data), 256 - (at + len(data)) % 256)
        return data.split(b'\0')[0]

    def __repr__(self) -> str:
        return f'{self.name}({", ".join(f"{word:#x}" for word in self.words)})'


class Ended:
    """How a program ended: its exit status, or the number of the signal below 0; what it wrote; and
    how often it asked the heap, and how often it got nothing there."""

    def __init__(self, status: int, out: bytes, said: bytes, heap: tuple[int, int] | None) -> None:
        self.status, self.out, self.said = status, out, said
        self.asked, self.refused = heap or (0, 0)


# What is told of a call: `None` to let it go on, or what comes of it.
OnCall = Callable[[Call], Any]


class Process:
    """The program while it runs: who stands beside it may ask what it has written, and whether it
    has ended."""

    def __init__(self, pid: int, out: int) -> None:
        self.pid, self._out, self.ended = pid, out, threading.Event()

    @property
    def out(self) -> bytes:
        return os.pread(self._out, 1 << 26, 0)

    def end(self) -> None:
        if not self.ended.is_set():
            os.kill(self.pid, signal.SIGKILL)


class Beside(threading.Thread):
    """What runs next to the program. Where it fails the program is ended."""

    def __init__(self, work: Callable[[Process], None], process: Process) -> None:
        super().__init__()
        self.work, self.process = work, process
        self.error: Exception | None = None
        self.start()

    def run(self) -> None:
        try:
            self.work(self.process)
        except Exception as error:
            self.error = error
            self.process.end()


class Tracer:
    def __init__(self, pid: int, on_call: OnCall | None, heap: Heap | Clock | None) -> None:
        self.pid, self.heap = pid, heap
        self.on_call: Any = on_call
        self.started = False
        self.counted: tuple[int, int] | None = None
        self.page: int | None = None

    def memory(self) -> int:
        return os.open(f'/proc/{self.pid}/mem', os.O_RDWR)

    def registers(self, pid: int) -> Any:
        found = Registers()
        ptrace(GETREGS, pid, 0, ctypes.addressof(found))
        return found

    def set_registers(self, pid: int, registers: Any) -> None:
        ptrace(SETREGS, pid, 0, ctypes.addressof(registers))

    def begin(self) -> None:
        """The program has just been loaded: it is stopped once more where its own code begins, once
        its imports are found."""
        self.started = True
        if self.heap:
            with open(f'/proc/{self.pid}/auxv', 'rb') as file:
                words: dict[int, int] = dict(struct.iter_unpack('<QQ', file.read()))  # type: ignore
            self.at = words[9]
            memory = self.memory()
            self.kept = os.pread(memory, 3, self.at)
            os.pwrite(memory, b'\xcc', self.at)
            os.close(memory)

    def trapped(self) -> None:
        """At its own code: a page is had for the program, by a call of its own, and the functions
        of the heap lead there."""
        registers, memory = self.registers(self.pid), self.memory()
        if self.page is None:
            self.page = 0
            self.first = Registers(*registers)
            self.first[RIP] = self.at
            os.pwrite(memory, b'\x0f\x05\xcc', self.at)  # syscall; int3
            for place, word in (
                (RAX, 9),
                (RDI, 0),
                (RSI, 4096),
                (RDX, 7),
                (REG_R10, 0x22),
                (REG_R8, (1 << 64) - 1),
                (REG_R9, 0),
                (RIP, self.at),
            ):
                registers[place] = word
            self.set_registers(self.pid, registers)
        else:
            page: int = registers[RAX]
            self.page = page
            assert self.heap
            base = self.at - self.heap.entry
            originals = []
            for slot, name in self.heap.slots.items():
                originals.append((name, struct.unpack('<Q', os.pread(memory, 8, base + slot))[0]))
            starts, code = self.heap.code(originals)
            os.pwrite(memory, code, page)
            for slot, start in zip(self.heap.slots, starts):
                os.pwrite(memory, struct.pack('<Q', page + start), base + slot)
            os.pwrite(memory, self.kept, self.at)
            self.set_registers(self.pid, self.first)
        os.close(memory)

    def count(self) -> None:
        if self.heap and self.page:
            memory = self.memory()
            asked, _, given = struct.unpack('<3q', os.pread(memory, 24, self.page + 3072))
            os.close(memory)
            times = 1 << 62 if self.heap.times is None else self.heap.times
            self.counted = asked, min(times - given, times)

    def call(self, pid: Any) -> bool:
        registers = self.registers(pid)
        told = self.on_call(Call(pid, registers))
        if told is None:
            return True
        if told == STOP:
            return False
        if isinstance(told, Short):
            registers[RDX] = min(registers[RDX], told.size)
        else:
            registers[ORIG_RAX] = (1 << 64) - 1
            registers[RAX] = (told.value if isinstance(told, Gives) else -told.error) % (1 << 64)
        self.set_registers(pid, registers)
        return True

    def follow(self) -> int:
        """The status with which the program ends."""
        begun = set()
        while True:
            pid, status = os.waitpid(-self.pid, WALL)
            if os.WIFEXITED(status) or os.WIFSIGNALED(status):
                if pid == self.pid:
                    return os.waitstatus_to_exitcode(status)
                continue
            got, event, sent = os.WSTOPSIG(status), status >> 16, 0
            if event == EVENT_SECCOMP:
                if self.started and self.page != 0 and not self.call(pid):
                    os.kill(self.pid, signal.SIGKILL)
                    continue
            elif event == EVENT_EXEC:
                self.begin()
            elif event == EVENT_EXIT:
                if pid == self.pid:
                    self.count()
            elif event:
                pass
            elif got == signal.SIGTRAP and self.heap and self.started and not self.page:
                self.trapped()
            elif got == signal.SIGSTOP and pid not in begun:
                begun.add(pid)
            else:
                sent = got
            try:
                ptrace(CONT, pid, 0, sent)
            except ProcessLookupError:
                pass


def _become(
    words: Sequence[str], names: Collection[str], streams: Iterable[int], env: dict[str, str]
) -> None:
    os.setpgid(0, 0)
    for number, stream in enumerate(streams):
        os.dup2(stream, number)
    code = _filter(names)
    buffer = ctypes.create_string_buffer(code, len(code))
    program = ctypes.create_string_buffer(
        struct.pack('<HxxxxxxQ', len(code) // 8, ctypes.addressof(buffer)), 16
    )
    ptrace(TRACEME, 0)
    os.kill(os.getpid(), signal.SIGSTOP)
    if LIBC.prctl(38, 1, 0, 0, 0) or LIBC.prctl(22, 2, ctypes.addressof(program), 0, 0):
        os._exit(126)
    os.execve(words[0], list(words), env)


def _begin(
    words: Sequence[str], names: Collection[str], files: list[int], env: dict[str, str]
) -> NoReturn:
    """The new process becomes the program; it ends where it can't."""
    try:
        _become(words, names, files, env)
    finally:
        os._exit(127)


def run(
    words: Sequence[str],
    names: Collection[str] = (),
    on_call: OnCall | None = None,
    stdin: bytes = b'',
    heap: Heap | Clock | None = None,
    beside: Callable[[Process], None] | None = None,
    limit: float = 600,
) -> Ended:
    """Runs these words, and tells `on_call` of each call of these names that the program is about
    to make. `beside` runs next to it in a thread of its own. A program that takes longer than
    `limit` seconds is ended, and that is an error.
    """
    files = [os.memfd_create(name) for name in ('in', 'out', 'said')]
    os.write(files[0], stdin)
    os.lseek(files[0], 0, os.SEEK_SET)
    env = {**os.environ, 'LD_BIND_NOW': '1'}
    pid = os.fork() or _begin(words, names, files, env)
    process = Process(pid, files[1])

    def watch(process: Process) -> None:
        if not process.ended.wait(limit):
            raise TimeoutError(f'the program took longer than {limit:g} s')

    try:
        _, status = os.waitpid(pid, WALL)
        if not os.WIFSTOPPED(status):
            raise OSError(errno.EPERM, 'a program can not be traced here')
        ptrace(SETOPTIONS, pid, 0, OPTIONS)
        tracer = Tracer(pid, on_call, heap)
        aside = [Beside(work, process) for work in (watch, beside) if work is not None]
        try:
            ptrace(CONT, pid)
            status = tracer.follow()
        finally:
            process.ended.set()
        for one in aside:
            one.join()
            if one.error:
                raise one.error
        out, said = (os.pread(file, 1 << 26, 0) for file in files[1:])
        return Ended(status, out, said, tracer.counted)
    finally:
        if not process.ended.is_set():
            os.kill(pid, signal.SIGKILL)
            os.waitpid(pid, WALL)
        for file in files:
            os.close(file)


def lacks() -> str | None:
    """Why programs can't be traced here; None where they can."""
    if (
        sys.platform != 'linux'
        or platform.machine() != 'x86_64'
        or ctypes.sizeof(ctypes.c_void_p) != 8
    ):
        return 'programs are traced on Linux on x86-64 alone'
    seen = []
    try:
        ended = run(
            ['/bin/sh', '-c', 'echo here'],
            ['write'],
            lambda call: seen.append(call.data),
            limit=300,
        )
    except OSError as error:
        return f'programs can not be traced here: {error}'
    if (ended.status, ended.out, seen) != (0, b'here\n', [b'here\n']):
        return f'programs can not be traced here: {(ended.status, ended.out, ended.said, seen)!r}'
    return None
