"""Starts and ends the programs of the command line: their parsers with `--version`, and their
status, even where nobody reads their output, it can not be written, or Ctrl-C ends them."""
from __future__ import annotations

import argparse
import contextlib
import os
import pathlib
import signal
import sys
from collections.abc import Callable

from .. import __version__

ONE = 'nulvrader '  # how the name of a program begins that the command `nulvrader` runs
VERSION = f'Nulvrader {__version__}'
# The program of a desk: beside `tools/` in an installed package, and `./desk` in a checkout.
PROGRAM = str(pathlib.Path(__file__).resolve().parents[3] / 'desk')
CLOSED = 141  # the status of a program that has written to a closed pipe, as shells have it


def program(name: str) -> str:
    """Returns the name of a program: `nulvrader NAME` if the command `nulvrader` runs it."""
    return sys.argv[0] if sys.argv[0].startswith(ONE) else name


def told(text: str) -> str:
    """Returns a help text that names the programs as this one was called: `nulvrader ask` or
    `tools/ask`."""
    return text.replace('tools/', ONE) if sys.argv[0].startswith(ONE) else text


def add_version(parser: argparse.ArgumentParser) -> None:
    """Adds the option `--version`."""
    text = 'print the version, and end'
    parser.add_argument('-V', '--version', action='version', version=VERSION, help=text)


def parser(text: str | None, name: str | None = None) -> argparse.ArgumentParser:
    """Returns the parser of a program; `text` is the head of its help."""
    made = argparse.ArgumentParser(
        prog=program(name) if name else None,
        description=told(text or ''),
        formatter_class=argparse.RawDescriptionHelpFormatter,
    )
    add_version(made)
    return made


def run(main: Callable[[], int | None]) -> int | str | None:
    """Runs a program, and returns its status. If nobody reads its output any more, and by Ctrl-C,
    it ends without a message."""
    status: int | str | None = None
    try:
        try:
            status = main()
        except SystemExit as ended:
            status = ended.code
        _flush()
    except BrokenPipeError:
        _write_nowhere(1, 2)
        return CLOSED
    except OSError as fault:
        _write_nowhere(1)
        return f'{os.path.basename(sys.argv[0])}: {fault}'
    except KeyboardInterrupt:
        with contextlib.suppress(OSError):
            _flush()
        signal.signal(signal.SIGINT, signal.SIG_DFL)
        os.kill(os.getpid(), signal.SIGINT)
    return status


def _flush() -> None:
    """Flushes standard output, unless it was closed from the start."""
    if sys.stdout is not None:
        sys.stdout.flush()


def _write_nowhere(*files: int) -> None:
    """Discards the output that is not yet written, which Python would try to write as it ends."""
    nowhere = os.open(os.devnull, os.O_WRONLY)
    for file in files:
        os.dup2(nowhere, file)
