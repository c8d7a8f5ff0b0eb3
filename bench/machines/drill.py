"""The command line of `bench/standby`."""
from __future__ import annotations

import argparse
import os
import random
import shutil
import signal
import sys
import tempfile

from nulvrader.standby.gluster import OPTIONS, read_options

from . import cluster, figures
from .cluster import Cluster
from .faults import KINDS, OF_CLUSTER
from .namespaces import Machines, NoMachines
from .namespaces import run as run_program
from .rounds import Drill, middle
from .volume import DAEMONS, Volume

HERE = os.path.dirname(os.path.abspath(__file__))
ROOT = os.path.normpath(os.path.join(HERE, '..', '..'))
PROGRAM = os.path.join(ROOT, 'build', 'desk')
UNPACK = os.path.join(ROOT, 'dev', 'unpack-release')


def words(text: str) -> argparse.ArgumentParser:
    """Returns the words of the command line."""
    form = argparse.RawDescriptionHelpFormatter
    line = argparse.ArgumentParser(prog='standby', description=text, formatter_class=form)
    add = line.add_argument
    add('rounds', type=int, nargs='?', default=0, help='how many rounds')
    add('kinds', nargs='*', metavar='KIND', help=f'{", ".join(KINDS)} (default: all)')
    add('--program', help='the desk (default: build/desk, or else that of release/)')
    add('--vehicles', type=int, default=3, help='how many vehicles (default: 3)')
    add('--seed', type=int, default=1, help='of all that happens by chance (default: 1)')
    add('--folder', help='where the disks of the machines are (default: a temporary folder)')
    add('--memory', action='store_true', help='the disks are in memory')
    add('--pacemaker', action='store_true', help='Pacemaker moves the desk, as in examples/standby')
    add('--arbiter', action='store_true', help='the third machine has an arbiter, and no copy')
    told = (
        'a simulated plant drives for about so many minutes, with faults of these kinds meanwhile'
    )
    add('--day', type=float, default=0.0, metavar='MINUTES', help=told)
    told = 'seconds of a day from one fault to the next (default: 600)'
    add('--every', type=float, default=600.0, metavar='SECONDS', help=told)
    told = 'how many seconds of a day go by in a second at most (default: 1)'
    add('--pace', type=float, default=1.0, metavar='SECONDS', help=told)
    told = 'times calls and takeovers instead, with files of so many loads'
    add('--rows', type=int, nargs='+', default=[], metavar='LOADS', help=told)
    add('--control', action='store_true', help='two writers must be found')
    add('--verbose', action='store_true', help='what the desks have said is printed')
    return line


def missing(*, with_cluster: bool = False) -> str | None:
    """Returns what keeps the drill from running here, if something does."""
    wanted = (*DAEMONS, *(cluster.DAEMONS if with_cluster else ()))
    programs = [name for name in wanted if shutil.which(name) is None]
    if programs:
        return f'the programs {", ".join(programs)} are missing'
    if os.geteuid() != 0:
        return 'only root may make machines'
    return None if os.path.exists('/dev/fuse') else 'there is no /dev/fuse'


def print_figures(drill: Drill) -> None:
    """Prints what was measured."""
    for kind, took in sorted(drill.figures.takeovers.items()):
        last = max(drill.figures.last.get(kind, [0.0]))
        told = f'{len(took)} takeovers after {middle(took)}'
        print(f'{kind}: {told}, the old desk answered {last:.1f} s longer at most')
    if drill.figures.planned:
        print(f'planned: {len(drill.figures.planned)} after {middle(drill.figures.planned)}')


def program_of(given: argparse.Namespace, folder: str) -> str:
    """Returns the program of the desk. That of the release is unpacked."""
    if given.program is not None:
        return os.path.abspath(str(given.program))
    if os.access(PROGRAM, os.X_OK):
        return PROGRAM
    place = os.path.join(folder, 'release')
    if run_program(UNPACK, place).returncode:
        raise NoMachines('there is no program: build one with ./desk, and name it by --program')
    return os.path.join(place, 'desk')


def run(given: argparse.Namespace, folder: str) -> int:
    """Runs what is asked for. Returns the status."""
    options = read_options(OPTIONS)
    if given.control:
        options['client.strict-locks'] = 'off'
    program = program_of(given, folder)
    prepare = cluster.preparation(program) if given.pacemaker else None
    place = os.path.join(folder, 'machines')
    os.mkdir(place)
    with Machines(place, in_memory=given.memory, prepare=prepare) as machines:
        volume = Volume(machines, options, has_arbiter=given.arbiter)
        volume.make()
        its_cluster = Cluster(machines) if given.pacemaker else None
        drill = Drill(machines, volume, program, is_plain=given.control, cluster=its_cluster)
        drill.records.stale += volume.stale()
        is_right = True
        try:
            if given.day:
                from . import day  # the package of the plant is beside this one

                is_right = day.run(drill, folder, given)
            elif given.rows:
                figures.run(drill, folder, given.rows)
                return 0
            else:
                run_rounds(drill, given)
        finally:
            drill.end()
            if given.verbose:
                said = [line for desk in drill.desks.values() for line in desk.lines]
                print(*sorted(said), sep='\n')
    return print_end(drill, given, is_right)


def run_rounds(drill: Drill, given: argparse.Namespace) -> None:
    """Runs the rounds."""
    drill.begin(given.vehicles)
    if given.control:
        drill.control(given.kinds[0] if given.kinds else 'idle')
        return
    is_for = (kind for kind in KINDS if given.pacemaker or kind not in OF_CLUSTER)
    kinds = given.kinds or list(is_for)
    for number in range(given.rounds):
        drill.round(number + 1, kinds[number % len(kinds)])
    drill.finish()


def print_end(drill: Drill, given: argparse.Namespace, is_right: bool) -> int:
    """Prints what was found. Returns the status."""
    records, judged = drill.records, drill.judged()
    faults = set(drill.traffic.faults) if drill.traffic is not None else set()
    print_figures(drill)
    told = f'{len(records.answers)} answers, {records.published} messages'
    done = f', {drill.traffic.done} transports' if drill.traffic is not None else ''
    print(f'{given.rounds} rounds, {len(drill.terms)} desks, {told}{done}')
    if drill.cluster is not None:
        print(f'{len(drill.cluster.watchdog.resets)} machines were reset by their watchdogs')
    for line in (*records.lost[:20], *records.stale[:20], *records.back[:20], *faults):
        print(line.strip())
    print(judged, flush=True)
    if given.control:
        return 0 if judged.writers else 1
    return int(bool(judged.lost or judged.writers or judged.stale or faults or not is_right))


def main(line: list[str], text: str) -> int:
    """Runs the drill; `text` is the head of its help."""
    parser = words(text)
    given = parser.parse_args(line)
    unknown = [kind for kind in given.kinds if kind not in KINDS]
    if unknown:
        parser.error(f'no kind: {", ".join(unknown)}; there are {", ".join(KINDS)}')
    if not given.pacemaker and set(given.kinds) & set(OF_CLUSTER):
        parser.error(f'{", ".join(OF_CLUSTER)}: only with --pacemaker')
    why = missing(with_cluster=given.pacemaker)
    if why:
        parser.error(why)
    if given.program is not None and not os.access(given.program, os.X_OK):
        parser.error(f'--program: there is no program {given.program}')
    random.seed(given.seed)
    signal.signal(signal.SIGTERM, lambda *_: sys.exit(1))
    try:
        with tempfile.TemporaryDirectory(
            dir=given.folder or '/var/tmp', ignore_cleanup_errors=True
        ) as folder:
            return run(given, folder)
    except NoMachines as fault:
        print(f'standby: {fault}', file=sys.stderr)
        return 3
