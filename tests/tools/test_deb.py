"""Shows that the Debian package is made without an error of `lintian`, and is installed, upgraded,
removed and purged on a machine without the kit, a Debian that systemd-nspawn boots. It takes
minutes: NULVRADER_LONG=1. NULVRADER_DEBIAN names a tar of a Debian with python3, systemd and
systemd-sysv, as mmdebstrap makes it, and NULVRADER_DEB a package; what isn't named is made."""
from __future__ import annotations

import contextlib
import os
import re
import shutil
import signal
import sqlite3
import subprocess
import tempfile
import unittest

from tests.support.desks import DESK
from tests.support.first_schema import BEGUN, FIRST
from tests.support.programs import ROOT, until

PLANT = os.path.join(ROOT, 'examples')
NEEDS = (
    'dpkg-buildpackage',
    'dh_python3',
    'help2man',
    'lintian',
    'mmdebstrap',
    'systemd-nspawn',
    'nsenter',
)
MISSING = [name for name in NEEDS if shutil.which(name) is None]
INCLUDED = 'python3,systemd,systemd-sysv,dbus,man-db,bash-completion,procps'
# A ring with four sidings, and a station at the end of each.
LAYOUT = 'kind,id,from,to\n' + ''.join(
    f'node,R{n},,\nnode,S{n},,\nedge,E{n},R{n},R{n % 4 + 1}\n'
    f'edge,I{n},R{n},S{n}\nedge,O{n},S{n},R{n}\nstation,{"ABCD"[n - 1]},S{n},4\n'
    for n in (1, 2, 3, 4)
)
# Two vehicles, and people who for a minute have four loads carried from station to station. At the
# end each load is where it was to be. It prints how many jobs there were.
MINUTE = """
import time
from nulvrader.common.names import VehicleKey
from nulvrader.desk.client import Desk
desk, ends, jobs = Desk('unix:/run/nulvrader/desk.sock', timeout=60), time.monotonic() + 60, 0
for serial, node in (('0001', 'S1'), ('0002', 'S3')):
    desk.register_vehicle(VehicleKey('KIT', serial), node)
wanted = {f'P{station}': station for station in 'ABCD'}
for load, station in wanted.items():
    desk.register_load(load, station)
live = True
while live or time.monotonic() < ends:
    live = False
    for load, station in wanted.items():
        known = desk.load(load)
        live = live or known.job is not None
        if known.job is None and known.place != f'station {station}':
            sys.exit(f'{load} is at {known.place}, and not at {station}')
        if known.job is None and time.monotonic() < ends:
            wanted[load] = 'ABCDA'['ABCD'.index(station) + 1]
            jobs += 1
            desk.add_job(f'J{jobs}', load, wanted[load])
    time.sleep(0.5)
    if time.monotonic() > ends + 240:
        sys.exit(f'after {jobs} jobs something waits for ever')
print(jobs)
"""
UNITS = [f'nulvrader-{name}.service' for name in ('board', 'desk', 'dispatch', 'proxy')]
COMPLETE = """. /usr/share/bash-completion/completions/nulvrader
COMP_WORDS=({words}) COMP_CWORD={at}; _nulvrader; echo "${{COMPREPLY[@]}}" """


def why_not() -> str:
    """Why this is not tried here; nothing if it is."""
    if os.environ.get('NULVRADER_LONG') != '1':
        return 'it takes minutes (NULVRADER_LONG=1)'
    if MISSING:
        return f'no {" and no ".join(MISSING)} here'
    return '' if os.geteuid() == 0 else 'root alone boots a machine'


@unittest.skipIf(why_not(), why_not())
class Package(unittest.TestCase):
    here: str
    deb: str
    machine: subprocess.Popen[bytes]

    @classmethod
    def setUpClass(cls) -> None:
        folder = tempfile.TemporaryDirectory()
        cls.addClassCleanup(folder.cleanup)
        cls.here = folder.name
        cls.deb = cls.make('0')
        cls.machine = cls.boot()
        cls.addClassCleanup(cls.end)

    @classmethod
    def path(cls, *names: str) -> str:
        """A file of the folder."""
        return os.path.join(cls.here, *names)

    @classmethod
    def make(cls, name: str) -> str:
        """Makes the package, packed in little time, and returns its path; or that of one which was
        made before."""
        if 'NULVRADER_DEB' in os.environ:
            return os.environ['NULVRADER_DEB']
        line = [os.path.join(ROOT, 'dev', 'make-deb'), '--program', DESK, '--to', cls.path(name)]
        fast = {'DPKG_DEB_COMPRESSOR_TYPE': 'gzip', 'DPKG_DEB_COMPRESSOR_LEVEL': '1'}
        env = {**os.environ, **fast}
        done = subprocess.run(line, check=True, stdout=subprocess.PIPE, text=True, env=env)
        return done.stdout.strip()

    @classmethod
    def boot(cls) -> 'subprocess.Popen[bytes]':
        """Boots a Debian with a network of its own."""
        tar = os.environ.get('NULVRADER_DEBIAN') or cls.path('debian.tar')
        if not os.path.exists(tar):
            line = ['mmdebstrap', '--variant=minbase', f'--include={INCLUDED}', 'bookworm', tar]
            subprocess.run(line, check=True, capture_output=True)
        os.mkdir(cls.path('root'))
        subprocess.run(['tar', 'xpf', tar, '-C', cls.path('root')], check=True)
        line = ['systemd-nspawn', '-q', '-D', cls.path('root'), '--register=no', '--keep-unit']
        with open(cls.path('log'), 'wb') as log:
            machine = subprocess.Popen(
                [*line, '--private-network', '-b'], stdin=subprocess.DEVNULL, stdout=log, stderr=log
            )
        cls.machine = machine

        def is_up() -> bool:
            if machine.poll() is not None:
                with open(cls.path('log'), encoding='utf-8', errors='replace') as log:
                    raise unittest.SkipTest(
                        f'systemd-nspawn boots nothing here: {log.read()[-500:]}'
                    )
            return bool(cls.leader()) and cls.run_in('systemctl is-system-running')[1].strip() in (
                'running',
                'degraded',
            )

        until(is_up, 'a machine that runs', 600)
        return machine

    @classmethod
    def leader(cls) -> str:
        """The process that is the first one of the machine."""
        path = f'/proc/{cls.machine.pid}/task/{cls.machine.pid}/children'
        with open(path, encoding='ascii') as file:
            return (file.read().split() or [''])[0]

    @classmethod
    def end(cls) -> None:
        """Ends the machine."""
        leader = cls.leader()
        if leader:
            os.kill(int(leader), signal.SIGKILL)
        cls.machine.wait(300)

    @classmethod
    def run_in(cls, script: str, said: str = '') -> tuple[int, str]:
        """Runs a script in the machine: its status, and what it prints."""
        env = ['env', '-i', 'PATH=/usr/sbin:/usr/bin:/sbin:/bin', 'HOME=/root', 'LANG=C.UTF-8']
        env += ['DEBIAN_FRONTEND=noninteractive', 'MANPAGER=cat']
        line = ['nsenter', '-t', cls.leader(), *'-m -u -i -n -p -C -r -w'.split(), *env]
        done = subprocess.run(
            [*line, 'bash', '-c', script],
            input=said,
            stdout=subprocess.PIPE,
            stderr=subprocess.STDOUT,
            text=True,
        )
        return done.returncode, done.stdout

    def done(self, script: str, said: str = '') -> str:
        """Runs a script in the machine that has to succeed, and returns what it prints."""
        status, out = self.run_in(script, said)
        self.assertEqual(status, 0, f'{script}: {out}')
        return out

    def put(self, source: str, name: str) -> None:
        """Copies a file or a folder into the machine."""
        to = self.path('root', 'root', name)
        if os.path.isdir(source):
            shutil.copytree(source, to, dirs_exist_ok=True)
        else:
            shutil.copy(source, to)

    def active(self) -> list[str]:
        """The units of ours that run."""
        line = "systemctl list-units --plain --no-legend --state=running 'nulvrader-*.service'"
        return [row.split()[0] for row in self.done(line).splitlines()]

    def answers(self) -> None:
        """The units run, and the desk answers."""
        until(lambda: self.active() == UNITS, 'the units run')
        until(lambda: self.run_in('nulvrader ask loads')[0] == 0, 'the desk answers')

    def install(self, *words: str) -> None:
        """Has apt install the package."""
        more = ' '.join(words)
        self.done(f'apt-get install -y --no-install-recommends {more} /root/nulvrader.deb')

    def setUp(self) -> None:
        self.put(self.deb, 'nulvrader.deb')
        with open(self.path('root', 'root', 'lay out.csv'), 'w', encoding='utf-8') as file:
            file.write(LAYOUT)

    def tearDown(self) -> None:
        self.run_in('systemctl stop "vehicle*"; apt-get purge -y nulvrader')
        self.run_in('rm -rf /var/lib/nulvrader /var/backups/nulvrader "/srv/my desk" /etc/nginx')
        self.run_in('rm -rf /etc/systemd/system/nulvrader-*.d; systemctl daemon-reload')

    def test_lintian(self) -> None:
        """It finds neither an error nor anything to warn of."""
        done = subprocess.run(
            ['lintian', '--fail-on', 'error,warning', self.deb], capture_output=True, text=True
        )
        self.assertEqual(done.returncode, 0, done.stdout)

    def test_from_the_installation_to_the_purge(self) -> None:
        """Seven commands: install, init, backup, upgrade, restore, remove, purge."""
        self.install()
        self.nothing_by_accident()
        self.assertIn('the board: https://', self.done('nulvrader init "/root/lay out.csv"'))
        self.answers()
        self.minute()
        self.assertIn('other clients waited', self.done('nulvrader backup'))
        self.done('nulvrader ask register-load L2 --station A')
        self.install('--reinstall')
        self.answers()
        self.assertIn('L2 ', self.done('nulvrader ask loads'))
        said = self.done('nulvrader restore /var/backups/nulvrader/*.db', 'yes\nyes\n\n\nlater\n')
        self.assertIn('10. Start the gateways', said)
        self.answers()
        self.assertNotIn('L2 ', self.done('nulvrader ask loads'))
        self.done('apt-get remove -y nulvrader')
        self.assertEqual(self.active(), [])
        self.done('apt-get purge -y nulvrader')
        self.done('test -e /var/lib/nulvrader/desk/warehouse.db -a ! -e /etc/nulvrader')
        self.assertEqual(self.done('ls /var/backups/nulvrader').count('.db'), 1)

    def nothing_by_accident(self) -> None:
        """Without a file the desk is not started; the log says what to do."""
        self.done('systemctl start nulvrader-desk')
        self.assertEqual((self.active(), self.done('ls /var/lib/nulvrader/desk')), ([], ''))
        self.assertIn(
            '`nulvrader init LAYOUT.csv`', self.done('journalctl -o cat -u nulvrader-desk')
        )

    def minute(self) -> None:
        """A minute of a simulated plant: the dispatcher gives the orders."""
        self.put(PLANT, 'examples')
        self.done('ln -sfn /usr/lib/nulvrader/tools /root/tools')
        for serial, node in (('0001', 'S1'), ('0002', 'S3')):
            vehicle = '/root/examples/vehicle --desk unix:/run/nulvrader/desk.sock --step 0.2'
            words = f'--manufacturer KIT --serial {serial} --node {node}'
            self.done(
                f'systemd-run --property=Restart=always --unit=vehicle{serial} {vehicle} {words}'
            )
        self.assertGreaterEqual(
            int(self.done("PYTHONPATH=/usr/lib/nulvrader/tools python3 -", MINUTE)), 4
        )
        self.done('systemctl stop "vehicle*"')
        log = self.done('journalctl -o cat -u nulvrader-dispatch')
        self.assertNotIn('Traceback', log)

    def test_manual_and_completion(self) -> None:
        """Each command has its page, which `man -l` shows without a warning, and its words are
        completed."""
        self.install()
        text = self.done('nulvrader --help').partition('options:')[0]
        commands = re.findall(r'^  ([a-z-]+) {2,}\S', text, re.M)
        self.assertGreater(len(commands), 15)
        for name in ('nulvrader', *(f'nulvrader-{one}' for one in commands)):
            script = f'man --warnings -l /usr/share/man/man1/{name}.1.gz'
            self.assertIn(name.upper(), self.done(f'{script} 2>/dev/null'))
            self.assertEqual(self.done(f'{script} 2>&1 >/dev/null'), '', name)
        for words, at, wanted in (
            ('nulvrader re', 1, ['replay', 'report', 'restore']),
            ('nulvrader ask add', 2, ['add-job']),
            ('nulvrader restore --fr', 2, ['--from']),
        ):
            found = self.done(COMPLETE.format(words=words, at=at)).split()
            self.assertEqual(sorted(found), wanted)

    def test_the_order_of_the_units(self) -> None:
        """All are started before there is a file, and again as at a boot, and killed: at the end
        all run."""
        self.install()
        names = 'nulvrader-proxy.socket nulvrader-desk nulvrader-board nulvrader-dispatch'
        self.done(f'systemctl enable --now {names}')
        waits = [name for name in UNITS if 'desk' not in name and 'proxy' not in name]
        until(lambda: set(waits) <= set(self.active()), 'what waits for the desk runs')
        self.assertNotIn('nulvrader-desk.service', self.active())
        self.done('nulvrader init "/root/lay out.csv"')
        self.answers()
        for script in (
            'systemctl stop "nulvrader-*"; systemctl start multi-user.target sockets.target',
            "systemctl kill -s KILL 'nulvrader-*.service' || true",
            'systemctl restart nulvrader-network',
        ):
            self.done(script)
            self.answers()
        log = self.done('journalctl -o cat -u nulvrader-dispatch')
        self.assertIn('gives orders at unix:/run/nulvrader/desk.sock', log)

    def test_a_restore_that_is_stopped(self) -> None:
        """While nobody has said where the vehicles are, no dispatcher is started, by nobody."""
        self.install()
        self.done('nulvrader init "/root/lay out.csv"')
        self.done('nulvrader ask register-vehicle KIT/0001 --node S1')
        self.done('nulvrader backup')
        copy = '/var/backups/nulvrader/*.db'
        status, said = self.run_in(f'nulvrader restore {copy}', 'yes\nyes\n')
        self.assertEqual(status, 1)
        self.assertIn('stopped at step 6; go on by --from 6', said)
        self.done('systemctl start multi-user.target nulvrader-dispatch')
        self.install('--reinstall')
        self.assertNotIn('nulvrader-dispatch.service', self.active())
        self.done(f'nulvrader restore --from 6 {copy}', 'S1\nlater\n')
        self.answers()

    def test_an_upgrade_that_migrates(self) -> None:
        """A file of the first schema: without an answer it stays, and no desk starts on it; with a
        yes it is migrated, and a copy from before is kept."""
        with contextlib.closing(sqlite3.connect(self.path('root', 'root', 'first.db'))) as base:
            base.executescript(FIRST + BEGUN)
        self.install()
        file = '/var/lib/nulvrader/desk/warehouse.db'
        self.done(f'install -o desk -g desk -m 640 /root/first.db {file}')
        self.done('systemctl enable --now nulvrader-proxy.socket nulvrader-desk')
        self.install('--reinstall')
        self.assertNotIn('nulvrader-desk.service', self.active())
        self.assertEqual(self.done('ls /var/backups/nulvrader'), '')
        self.done("echo 'nulvrader nulvrader/migrate boolean true' | debconf-set-selections")
        self.install('--reinstall')
        until(lambda: self.run_in('nulvrader ask loads')[0] == 0, 'the desk answers')
        self.assertIn('first-schema', self.done('ls /var/backups/nulvrader'))

    def test_a_hostile_day(self) -> None:
        """An upgrade is killed, the file has a name with blanks, all is purged while the desk runs,
        and installed again."""
        self.install()
        self.done(
            'mkdir -p "/srv/my desk" /etc/systemd/system/nulvrader-desk.service.d;'
            'chown desk:desk "/srv/my desk"; chmod 750 "/srv/my desk";'
            "sed -i 's,^NULVRADER_DB=.*,NULVRADER_DB=\"/srv/my desk/ware house.db\",'"
            ' /etc/nulvrader/nulvrader.conf;'
            'printf "[Service]\\nReadWritePaths=\\"/srv/my desk\\"\\n"'
            ' > /etc/systemd/system/nulvrader-desk.service.d/folder.conf; systemctl daemon-reload'
        )
        self.done('nulvrader init "/root/lay out.csv"')
        self.answers()
        self.done('nulvrader ask register-load L1 --station A')
        self.assertIn('/ware house-', self.done('nulvrader backup'))
        for seconds in (0.3, 1, 2):
            self.run_in(f'timeout -s KILL {seconds} dpkg -i /root/nulvrader.deb')
        self.done('dpkg --configure -a')
        self.install('--reinstall')
        self.answers()
        self.done(
            'mkdir -p /etc/nginx/sites-enabled;'
            'ln -s ../sites-available/nulvrader /etc/nginx/sites-enabled/'
        )
        self.done('apt-get purge -y nulvrader')
        self.assertEqual(self.active(), [])
        self.assertEqual(self.done('ls /etc/nginx/sites-enabled; ls /run/nulvrader'), '')
        self.assertEqual(self.run_in('pgrep -u desk,desk-board,desk-dispatch')[1], '')
        self.done('test -e "/srv/my desk/ware house.db"')
        self.done(
            'mkdir -p /var/lib/nulvrader/desk; cd "/srv/my desk";'
            'for one in "ware house.db"*; do'
            ' mv "$one" "/var/lib/nulvrader/desk/warehouse.db${one#ware house.db}"; done'
        )
        self.install()
        status, said = self.run_in('nulvrader init "/root/lay out.csv"')
        self.assertEqual(status, 1)
        self.done(said.rpartition('To start it: ')[2])
        self.answers()
        self.assertIn('L1 ', self.done('nulvrader ask loads'))


if __name__ == '__main__':
    unittest.main()
