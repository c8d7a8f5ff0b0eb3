"""The programs of `tools/` and `examples/`: run, and loaded as modules."""
import contextlib
import fcntl
import functools
import importlib.machinery
import importlib.util
import io
import os
import re
import signal
import socket
import subprocess
import sys
import tempfile
import time
from collections.abc import Callable
from typing import Any
from unittest import mock

from nulvrader.file import machine

ROOT = os.path.dirname(os.path.dirname(os.path.dirname(os.path.abspath(__file__))))
TOOLS = os.path.join(ROOT, 'tools')

PATIENCE = 120.0  # seconds until what is waited for has to be so, however busy the machine is


# A shell that runs the tests beside itself has signals ignored that would end it, and what ignores
# one hands that on to what it starts.
HANDLERS: tuple[tuple[int, Any], ...] = (
    (signal.SIGINT, signal.default_int_handler),
    (signal.SIGQUIT, signal.SIG_DFL),
    (signal.SIGHUP, signal.SIG_DFL),
)
for number, handler in HANDLERS:
    if signal.getsignal(number) == signal.SIG_IGN:
        signal.signal(number, handler)


def until(told: Callable[[], Any], what: str, patience: float = PATIENCE) -> Any:
    """Waits until something is so, at most for so many seconds, and gives what is told then."""
    ends = time.monotonic() + patience
    while True:
        found = told()
        if found:
            return found
        if time.monotonic() > ends:
            raise AssertionError(f'not within {patience:g} seconds: {what}')
        time.sleep(0.05)


@functools.cache
def file_of_ports() -> int:
    """The file whose bytes stand for ports: the tests of this machine lock the bytes of theirs. It
    is never closed, which would unlock all of them."""
    path = os.path.join(tempfile.gettempdir(), f'ports-of-tests-{os.geteuid()}')
    return os.open(path, os.O_RDWR | os.O_CREAT | os.O_NOFOLLOW, 0o600)


PORTS: set[int] = set()  # those of this program


def free_port() -> int:
    """A port of 127.0.0.1 that nobody has, for a program that is started later, or again. No other
    test is given it while this one's program runs."""
    while True:
        port = machine.free_port()
        if port not in PORTS:
            PORTS.add(port)
            with contextlib.suppress(BlockingIOError):
                fcntl.lockf(file_of_ports(), fcntl.LOCK_EX | fcntl.LOCK_NB, 1, port)
                return port


def matched(pattern: str, text: str, flags: int = 0) -> re.Match[str]:
    """The first place where a text has a pattern, which must be there."""
    found = re.search(pattern, text, flags)
    assert found, f'{pattern} is not in {text[:1000]}'
    return found


def wait_for_port(port: int, process: 'subprocess.Popen[Any]') -> None:
    """Waits until a program, which is running, listens on a port."""

    def listens() -> bool:
        if process.poll() is not None:
            raise AssertionError(
                f'it has ended: {process.stderr.read() if process.stderr else process.args}'
            )
        with socket.socket() as probe:
            return probe.connect_ex(('127.0.0.1', port)) == 0

    until(listens, f'port {port}')


def module(name: str, folder: str = 'tools') -> Any:
    """A program as a module."""
    path = os.path.join(ROOT, folder, name)
    loader = importlib.machinery.SourceFileLoader(name.replace('-', '_'), path)
    spec = importlib.util.spec_from_loader(loader.name, loader)
    assert spec
    made = importlib.util.module_from_spec(spec)
    sys.modules[loader.name] = made
    loader.exec_module(made)
    return made


def within(
    program: Any, *words: str, stdin: str = '', env: dict[str, str] | None = None
) -> tuple[Any, str, str]:
    """A program that was loaded as a module, run within this one: its status, what it prints, and
    what it says on standard error."""
    out, said = io.StringIO(), io.StringIO()
    with contextlib.ExitStack() as stack:
        stack.enter_context(mock.patch.object(sys, 'argv', [program.__name__, *words]))
        stack.enter_context(
            mock.patch.object(sys, 'stdin', io.TextIOWrapper(io.BytesIO(stdin.encode())))
        )
        stack.enter_context(mock.patch.dict(os.environ, env or {}))
        stack.enter_context(contextlib.redirect_stdout(out))
        stack.enter_context(contextlib.redirect_stderr(said))
        try:
            status = program.main()
        except SystemExit as ended:
            status = ended.code
    return status, out.getvalue(), said.getvalue()


def ran(
    name: str, *words: str, stdin: str = '', env: dict[str, str] | None = None
) -> tuple[int, str, str]:
    """A program of `tools/`, run: its status, what it prints, and what it says on standard
    error."""
    line = [sys.executable, os.path.join(TOOLS, name), *words]
    done = subprocess.run(line, input=stdin, capture_output=True, text=True, timeout=600, env=env)
    return done.returncode, done.stdout, done.stderr
