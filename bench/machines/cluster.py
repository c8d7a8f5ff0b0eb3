"""Corosync, Pacemaker and sbd in the machines, as `examples/standby` has them, so that what is
given to a plant is what is tried here: corosync.conf, cluster.crm, sbd and the agent are those.

Three things are not as in a plant. The watchdog is one of this program (`watchdog`). systemd runs
in no machine, so that its units in cluster.crm are resources that do nothing (`Dummy`). The
programs lie in another folder."""
from __future__ import annotations

import json
import os
import re
import shutil
import subprocess
import threading
import time
from collections.abc import Callable
from pathlib import Path

from .desks import Served, Term
from .namespaces import Machine, Machines, NoMachines, until
from .watchdog import Watchdog

HERE = os.path.dirname(os.path.abspath(__file__))
ROOT = os.path.normpath(os.path.join(HERE, '..', '..'))
EXAMPLES = Path(ROOT, 'examples', 'standby')
DAEMONS = ('corosync', 'pacemakerd', 'sbd', 'crm', 'crm_resource', 'setpriv')
AGENTS = '/usr/lib/ocf/resource.d'
PROGRAMS, PLACE = '/usr/lib/nulvrader/', '/srv/nulvrader/'
NETWORKS = ('10.78.0', '10.0.0')  # the second one between the machines, and that of the plant
ENV = ('env', '-i', 'PATH=/usr/sbin:/usr/bin:/sbin:/bin', 'HOME=/run/home', 'LANG=C.UTF-8')
GROUP = 'warehouse'
VOLUME = '/srv/desk'
WITHOUT = 3  # the machine that has a copy and a vote, and no desk
USER, CLIENTS = 59001, 59002
# Folders of a machine in the place of those that the cluster writes to.
FOLDERS = {
    'lib': '/var/lib/glusterd',
    'run': '/run',
    'log': '/var/log',
    'srv': '/srv',
    'agents': AGENTS,
    'corosync': '/etc/corosync',
    'corosync-lib': '/var/lib/corosync',
    'pacemaker-lib': '/var/lib/pacemaker',
}
FILES = {name: f'/etc/{name}' for name in ('passwd', 'group')}
LOGS = ('glusterfs', 'corosync', 'pacemaker', 'crmsh')
STATES = ('cib', 'pengine', 'cores', 'blackbox')
OWN = (  # of the user hacluster
    '/var/log/pacemaker',
    '/var/log/crmsh',
    '/run/crm',
    *(f'/var/lib/pacemaker/{name}' for name in STATES),
)


def example(name: str) -> str:
    """Returns the text of a file of `examples/standby`."""
    return (EXAMPLES / name).read_text(encoding='utf-8')


def configuration() -> str:
    """Returns cluster.crm for the machines."""
    text = example('cluster.crm').replace(PROGRAMS, PLACE)
    return re.sub(r'\bsystemd:[\w@-]+', 'ocf:pacemaker:Dummy', text)


def settings_of_sbd() -> dict[str, str]:
    """Returns the settings of sbd."""
    lines = [line for line in example('sbd').splitlines() if line[:1] not in ('', '#')]
    return {name: value for name, _, value in (line.partition('=') for line in lines)}


def preparation(program: str) -> Callable[[Machine], None]:
    """Returns what has a machine have folders, users, addresses and programs for the cluster,
    before it is there."""

    def prepare(machine: Machine) -> None:
        machine.folders, machine.networks = dict(FOLDERS), NETWORKS
        machine.files = {**machine.files, **FILES}
        folder = Path(machine.folder)
        for name in LOGS:
            (folder / 'log' / name).mkdir(parents=True)
        add_users(machine)
        place = folder / 'srv' / 'nulvrader'
        place.mkdir(parents=True)
        (folder / 'srv' / 'desk').mkdir()
        shutil.copy(program, place / 'desk')
        skip = shutil.ignore_patterns('__pycache__')
        shutil.copytree(os.path.join(ROOT, 'tools'), place / 'tools', ignore=skip)
        shutil.copytree(AGENTS, folder / 'agents', symlinks=True)
        if machine.number == WITHOUT:
            return
        (folder / 'agents' / 'nulvrader').mkdir(exist_ok=True)
        agent = folder / 'agents' / 'nulvrader' / 'desk'
        shutil.copy(EXAMPLES / 'desk', agent)
        agent.chmod(0o755)

    return prepare


def add_users(machine: Machine) -> None:
    """Has a machine have the users and groups of the package, and those of this system."""
    passwd, group = (Path('/etc', name).read_text(encoding='utf-8') for name in FILES)
    lines = [line for line in passwd.splitlines() if not line.startswith('desk:')]
    lines.append(f'desk:x:{USER}:{USER}::/nonexistent:/usr/sbin/nologin')
    machine.write('passwd', '\n'.join(lines) + '\n')
    lines = [line for line in group.splitlines() if not re.match('desk(-clients)?:', line)]
    lines += [f'desk:x:{USER}:', f'desk-clients:x:{CLIENTS}:desk']
    machine.write('group', '\n'.join(lines) + '\n')


class Cluster:
    """The cluster."""

    def __init__(self, machines: Machines) -> None:
        self.machines = machines
        self.settings = settings_of_sbd()
        self.watchdog = Watchdog(machines.all, float(self.settings['SBD_WATCHDOG_TIMEOUT']))
        self.key = os.urandom(256)
        self.over = False
        self.form()

    def form(self) -> None:
        """Starts it everywhere, and gives it its resources."""
        for machine in self.machines.all:
            self.start(machine)
        first = self.machines.all[0]
        for _ in until():
            if len(self.run(first, 'crm_node', '-p').stdout.split()) == len(self.machines.all):
                break
        for _ in until():
            if not self.run(first, 'crm_resource', '--wait', '--timeout', '30').returncode:
                break
        Path(first.folder, 'run', 'cluster.crm').write_text(configuration(), encoding='utf-8')
        words = ('crm', '-n', '-F', 'configure', 'load', 'update', '/run/cluster.crm')
        done = self.run(first, *words)
        if done.returncode:
            raise NoMachines(f'crm: {(done.stderr or done.stdout).strip()}')

    def start(self, machine: Machine) -> None:
        """Starts its programs in a machine whose volume is mounted."""
        machine.run('mkdir', '-p', '/run/home')
        for path in OWN:
            owner = ('-o', 'hacluster', '-g', 'haclient', '-m', '770')
            machine.run('install', '-d', *owner, path)
        self.mount(machine)
        folder = Path(machine.folder, 'corosync')
        (folder / 'corosync.conf').write_text(example('corosync.conf'), encoding='utf-8')
        (folder / 'authkey').unlink(missing_ok=True)
        (folder / 'authkey').write_bytes(self.key)
        pipe = self.watchdog.serve(machine)
        self.launch(machine, 'sbd', '-w', pipe, '-T', '-p', '/run/sbd.pid', 'watch')
        self.launch(machine, 'corosync', '-f')
        for _ in until():
            if self.run(machine, 'corosync-quorumtool', '-s').stdout:
                break
        self.launch(machine, 'pacemakerd')

    def mount(self, machine: Machine) -> None:
        """Has a machine see its volume where the configuration has it, as the service that mounts
        it in a plant: it tries again for as long as it takes."""
        for _ in until():
            machine.run('mount', '--bind', os.path.join(machine.folder, 'mount'), VOLUME)
            if f' {VOLUME} fuse.glusterfs ' in machine.run('cat', '/proc/mounts').stdout:
                if not machine.run('chown', 'desk:desk', VOLUME).returncode:
                    return
        raise NoMachines(f'{machine.name} does not see the volume')

    def launch(self, machine: Machine, *words: str) -> None:
        """Starts a program in a machine, with the settings of sbd."""
        pairs = [f'{name}={value}' for name, value in self.settings.items()]
        with open(os.path.join(machine.folder, f'{words[0]}.out'), 'ab') as out:
            machine.start([*ENV, *pairs, *words], out)

    def run(self, machine: Machine, *words: str) -> subprocess.CompletedProcess[str]:
        """Runs a command in a machine to its end."""
        return machine.run(*ENV, *words)

    def move_from(self, machine: Machine) -> None:
        """Has the desk be moved from a machine once all is well, as a person does."""
        self.run(machine, 'crm_resource', '--cleanup')
        self.run(machine, 'crm_resource', '--ban', '-r', GROUP, '--node', machine.name)

    def allow(self) -> None:
        """Lets the desk run anywhere again."""
        for machine in self.machines.all:
            if machine.is_up():
                if not self.run(machine, 'crm_resource', '--clear', '-r', GROUP).returncode:
                    return

    def wait_for_reset(self, machine: Machine) -> None:
        """Waits until the watchdog of a machine has reset it."""
        for _ in until():
            if not machine.is_up():
                return
        raise NoMachines(f'the watchdog of {machine.name} does not reset it')

    def end(self) -> None:
        """Stops the desk, and ends the watchdogs."""
        if self.over:
            return
        self.over = True
        role = ('--set-parameter', 'target-role', '--parameter-value', 'Stopped')
        for machine in self.machines.all:
            if machine.is_up():
                self.run(machine, 'crm_resource', '-r', GROUP, '--meta', *role)
                self.run(machine, 'crm_resource', '--wait', '--timeout', '60')
                break
        self.watchdog.close()


class Managed(Served):
    """The desk of a machine, which Pacemaker starts and stops."""

    front = 'nulvrader'

    def __init__(self, machine: Machine, cluster: Cluster, terms: list[Term]) -> None:
        super().__init__(machine, terms)
        self.cluster = cluster
        self.held: float | None = None
        self.is_serving = False
        threading.Thread(target=self.watch, daemon=True).start()

    def watch(self) -> None:
        """Looks again and again whether it serves, and notes each term."""
        while not self.over:
            time.sleep(0.02)
            try:
                with open(self.state, encoding='utf-8') as file:
                    told = json.load(file)
            except (OSError, ValueError):
                told = {}
            word, held = told.get('state'), told.get('held')
            self.is_serving = word == 'serving'
            if self.is_serving and held != self.held:
                self.held = held
                self.terms.append(Term(self.machine.number, float(held)))
                self.note('serving')

    def start(self) -> None:
        self.cluster.allow()

    def wait(self) -> None:
        for _ in until():
            self.cluster.move_from(self.machine)
            for _ in until(20):
                if not self.is_serving:
                    return

    def close(self) -> None:
        self.over = True
