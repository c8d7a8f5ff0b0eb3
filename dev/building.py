"""What the programs share that build the desk's program into a folder for `./desk`: one build at a
time there, the sources, a signal that ends the build, and the program run at the end. The folder
has `desk`, the program, crates.made, the lines of crates.txt of its crates, and `log`, what the
build said."""
from __future__ import annotations

import argparse
import contextlib
import fcntl
import os
import signal
import subprocess
import sys
from collections.abc import Callable, Iterator

TOP = os.path.dirname(os.path.dirname(os.path.abspath(__file__)))
SOURCES = os.path.join(TOP, 'dev', 'sources')
RUN_DESK = os.path.join(TOP, 'dev', 'run-desk')
SIGNALS = (signal.SIGHUP, signal.SIGINT, signal.SIGQUIT, signal.SIGTERM)


class Failed(Exception):
    """The build failed; the text says how."""


class Ended(Exception):
    """A signal is to end the build."""


# The signals that are to end the build. A build looks at them, so that it leaves nothing that runs.
caught: list[int] = []


def say(text: str) -> None:
    print('desk: ' + text, file=sys.stderr, flush=True)


def end_if_told() -> None:
    if caught:
        raise Ended


def text_of(path: str) -> str:
    """Returns the text of a file, which is empty where there is no file."""
    try:
        with open(path, encoding='utf-8', errors='replace') as file:
            return file.read()
    except FileNotFoundError:
        return ''


def crates() -> list[str]:
    """Returns the crates of the program, as their lines in crates.txt."""
    done = subprocess.run([SOURCES, '--crates'], stdout=subprocess.PIPE, text=True, check=True)
    return done.stdout.splitlines()


def is_current(folder: str) -> bool:
    """Whether the program in the folder was made of the sources that are here."""
    return subprocess.run([SOURCES, '--made', folder], check=False).returncode == 0


@contextlib.contextmanager
def locked(folder: str) -> Iterator[None]:
    """Waits until no other program builds in the folder, and keeps others from it."""
    with open(os.path.join(folder, 'lock'), 'w', encoding='utf-8') as lock:
        try:
            fcntl.flock(lock, fcntl.LOCK_EX | fcntl.LOCK_NB)
        except BlockingIOError:
            say('waiting for another ./desk here, which builds the program')
            fcntl.flock(lock, fcntl.LOCK_EX)
        yield


def catch_signals() -> None:
    """Notes signals in `caught`, but for those that are ignored, as `nohup` has it."""
    for number in SIGNALS:
        if signal.getsignal(number) is not signal.SIG_IGN:
            signal.signal(number, lambda number, _: caught.append(number))


def end_by(number: int) -> None:
    """Ends this program by a signal."""
    signal.signal(number, signal.SIG_DFL)
    os.kill(os.getpid(), number)


def keep(folder: str, crates_of_it: list[str], begun: float) -> None:
    """Puts `desk.new` in the place of the program. It is as old as the start of its build, so that
    an edit meanwhile makes it stale."""
    made, program = os.path.join(folder, 'crates.new'), os.path.join(folder, 'desk.new')
    os.utime(program, (begun, begun))
    # (the program first: one whose crates are told to be others is made anew)
    os.replace(program, os.path.join(folder, 'desk'))
    with open(made, 'w', encoding='utf-8') as file:
        file.write(''.join(line + '\n' for line in crates_of_it))
    os.replace(made, os.path.join(folder, 'crates.made'))


def main(text: str | None, build: Callable[[str, list[str]], None]) -> int:
    """Builds the program in a folder, where it isn't current, and runs it with the other words;
    `build` is given the folder and these words."""
    parser = argparse.ArgumentParser(
        description=text, formatter_class=argparse.RawDescriptionHelpFormatter
    )
    parser.add_argument('folder', metavar='FOLDER', help='the folder that is to have the program')
    what = 'what the program is run with then; with none it is only built'
    parser.add_argument('words', metavar='ARGUMENT', nargs=argparse.REMAINDER, help=what)
    given = parser.parse_args()
    folder = os.path.abspath(given.folder)
    os.umask(os.umask(0o077) | 0o022)  # others may not put another program there
    os.makedirs(folder, exist_ok=True)
    signal.signal(signal.SIGINT, signal.SIG_DFL)  # (while it waits for another)
    try:
        with locked(folder):
            if not is_current(folder):
                catch_signals()
                build(folder, given.words)
                end_if_told()
    except Failed as failed:
        say(str(failed))
        return 1
    except Ended:
        end_by(caught[0])
    if given.words:
        os.execv(RUN_DESK, [RUN_DESK, os.path.join(folder, 'desk'), *given.words])
    return 0
