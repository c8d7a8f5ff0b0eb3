"""The one command, `nulvrader`: runs the program of the desk, or a program of `tools/`."""
from __future__ import annotations

import os
import pathlib
import sys

from .admin import conf, migrate
from .common import entry

HELP = """usage: nulvrader COMMAND ..

The control desk of a warehouse. Each command has a --help.

the desk:
  serve         answers requests over the network
  replay        answers the requests of standard input
  report        prints a report of a file
  migrate       migrates a file of the first schema

a desk that runs:
  ask           asks it: a command for each of its calls
  board         shows it at work on a page
  dispatch      gives its waiting jobs to vehicles
  gateway       carries messages between it and the vehicles of a broker
  map           draws its warehouse
  webhooks      posts what happens to other programs

the dispatcher of a desk:
  job           says when a job is due, and how urgent it is
  close         closes nodes and edges
  open          opens them again

files:
  check-layout  names the errors of a layout file
  check-count   names the errors of a stocktake file
  new-file      carries a warehouse to a new file

an installed desk:
  init          makes its file with a layout, and starts it
  backup        copies its file
  restore       puts a copy back
  why           says why it does not start
  standby       serves its file on a volume that machines share

options:
  -h, --help     show this help message and exit
  -V, --version  print the version, and end

The desk, its file and the folder of the copies are those of /etc/nulvrader/nulvrader.conf, if that
is there and no option names others."""
PROGRAM = ('serve', 'replay', 'report', 'migrate')
VERSION = ('-V', '--version')
TOOLS = pathlib.Path(__file__).resolve().parent.parent
WRONG = 2


def tool(name: str) -> pathlib.Path | None:
    """Returns the path of a program of `tools/`: beside the package, or beside this command, where
    a package manager puts it. None where there is no such program."""
    for folder in (TOOLS, pathlib.Path(sys.argv[0]).resolve().parent):
        if (folder / name).is_file() and f'\n  {name} ' in HELP and name not in PROGRAM:
            return folder / name
    return None


def run_program(arguments: list[str]) -> int:
    """Replaces this program by the desk's. Returns a status only where that fails, or after a help
    text or the version."""
    program = TOOLS.parent / 'desk'
    if arguments[1:] in (['--help'], ['-h']):
        path = TOOLS.parent / 'docs' / 'help' / f'{arguments[0]}.txt'
        print(path.read_text(encoding='utf-8'), end='')
        return 0
    if len(arguments) == 2 and arguments[1] in VERSION:
        print(entry.VERSION)
        return 0
    if arguments[0] == 'serve' and not any(
        argument.startswith('--connections') for argument in arguments
    ):
        arguments = [*arguments, '--connections', '4294967295']
    try:
        os.execv(program, [str(program), *arguments])
    except OSError as fault:
        print(f'nulvrader: {program}: {fault.strerror}', file=sys.stderr)
        return 1


def _names_a_file(arguments: list[str]) -> bool:
    """Whether the arguments have the option `--db`."""
    return any(argument.partition('=')[0] == '--db' for argument in arguments)


def run(arguments: list[str]) -> int:
    """Runs the command that the arguments name, and returns its status."""
    if arguments[:1] == ['help'] and arguments[1:]:
        arguments = [arguments[1], '--help']
    name = arguments[0] if arguments else '--help'
    if name in ('-h', '--help', 'help'):
        print(HELP)
        return 0 if arguments else WRONG
    if name in VERSION:
        print(entry.VERSION)
        return 0
    for variable, value in conf.read().items():
        os.environ.setdefault(variable, value)
    if name == 'migrate' and 'NULVRADER_DB' in os.environ and not _names_a_file(arguments):
        sys.argv = [f'{entry.ONE}migrate', *arguments[1:]]
        return migrate.run(arguments[1:])
    if name in PROGRAM:
        return run_program(arguments)
    path = tool(name)
    if path is None:
        print(f'nulvrader: there is no command {name!a}\nTry: nulvrader --help', file=sys.stderr)
        return WRONG
    sys.argv = [entry.ONE + name, *arguments[1:]]
    code = compile(path.read_bytes(), str(path), 'exec')
    exec(code, {'__name__': '__main__', '__file__': str(path)})
    return 0


def main() -> None:
    """Runs the command of the command line, and ends with its status."""
    sys.exit(entry.run(lambda: run(sys.argv[1:])))
