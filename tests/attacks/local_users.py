"""Shows that a user of the machine without any rights keeps neither the desk down nor those who
look after it waiting, and puts nothing into their hands."""
from __future__ import annotations

import contextlib
import os
import resource
import shutil
import signal
import stat
import subprocess
import sys
import tempfile
import unittest
from collections.abc import Iterator
from unittest import mock

from tests.support.attacked_file import AT, DESK, ROWS, Attack, ran
from tests.support.networks import said
from tests.support.programs import ROOT, TOOLS

NOBODY = 65534  # a user without rights
MEMBER, BOARD, GATEWAY = 64001, 64003, 64004  # the dispatcher, the board, the gateway
TMPFILES = os.path.join(ROOT, 'examples', 'systemd', 'tmpfiles.conf')
PLACE = '/var/lib/nulvrader'
CLOSED = 'kind,name,due,priority\nnode,N7,,\n'
KIB = 1024
LATER = 255  # the status after which systemd tries again
# Each of so many programs has so many descriptors of one file. Its folder in /proc is root's, since
# no debugger may look into it.
MANY = """
import ctypes, os, sys, time
ctypes.CDLL(None).prctl(4, 0)
count, each = map(int, sys.argv[1:])
file = os.open('/dev/null', os.O_RDONLY)
for _ in range(count - 1):
    if os.fork() == 0:
        break
while os.dup(file) < each:
    pass
os.write(1, b'.')
time.sleep(600)
"""
# The dispatcher tells why a job waits.
TELLS = """
import os, sys
from nulvrader.dispatch.published import Published
os.umask(0o077)
Published(sys.argv[1], sys.exit).tell({'job J1': 'no vehicle is free'})
"""
HOLDS = "import os, sys, time; file = open(sys.argv[1]); os.write(1, b'.'); time.sleep(600)"
# It has a lease of a file: whoever opens that waits for it, as long as the system lets it have the
# lease (45 seconds), unless he says that he does not wait.
LEASES = """
import fcntl, os, signal, time
signal.signal(signal.SIGIO, signal.SIG_IGN)
fcntl.fcntl(0, fcntl.F_SETLEASE, fcntl.F_WRLCK)
os.write(1, b'.')
time.sleep(600)
"""
DESCRIPTORS = 4_000_000
SECONDS = 15  # of a processor, that a search through them may take


def missing(*names: str) -> str:
    """What is missing for an attack; nothing where it can be carried out."""
    if os.geteuid() != 0:
        return 'root alone becomes another user'
    return ''.join(f'no {name} here' for name in names if shutil.which(name) is None)


def as_user(user: int, group: int | None = None, more: int | None = None) -> list[str]:
    """Returns the beginning of a command of another user, in its own group if none is named, and in
    one more."""
    groups = '--clear-groups' if more is None else f'--groups={more}'
    return ['setpriv', f'--reuid={user}', f'--regid={group or user}', groups]


AS_NOBODY = as_user(NOBODY)


@unittest.skipIf(missing('setpriv'), missing('setpriv'))
class LocalUsers(Attack):
    """A user without rights fills folders, opens files, locks them, or is there first."""

    @contextlib.contextmanager
    def room(self, size: int) -> Iterator[str]:
        """A folder for temporary files with so much room."""
        place = self.path('room')
        os.makedirs(place, exist_ok=True)
        line = ['mount', '-t', 'tmpfs', '-o', f'size={size}', 'tmpfs', place]
        if subprocess.run(line, capture_output=True, check=False).returncode:
            self.skipTest('no disk of a given size can be mounted here')
        try:
            with mock.patch.dict(os.environ, TMPDIR=place):
                yield place
        finally:
            subprocess.run(['umount', place], check=True)

    def test_little_room_for_temporary_files(self) -> None:
        """It leaves ever more room in /tmp as a desk is started whose tables are in its log alone:
        that is tried again until there is enough, and no file is called damaged."""
        with open(ROWS, 'rb') as file:
            line = [DESK, 'replay', '--db', self.db, '--at', AT]
            subprocess.run(line, stdin=file, stdout=subprocess.DEVNULL, check=True)
        log = os.path.getsize(self.db + '-wal')
        self.assertLess(os.path.getsize(self.db), 1000)
        statuses = set()
        for more in range(-8 * KIB, 72 * KIB, 8 * KIB):
            with self.room(log + more):
                told = ran('why', '--file-only', '--db', self.db)
            self.assertIn(told.status, (0, LATER), (more, told.text))
            self.assertNotIn('damaged', told.text)
            statuses.add(told.status)
        self.assertEqual(statuses, {0, LATER})

    def test_millions_of_descriptors(self) -> None:
        """It opens four million descriptors: `why` does not look at all of them, and still names
        the program that has the file."""
        self.fill()
        soft, most = resource.getrlimit(resource.RLIMIT_NOFILE)
        each = min(most - 100, 200_000)
        count = DESCRIPTORS // each
        line = [*AS_NOBODY, '/usr/bin/python3', '-c', MANY, str(count), str(each)]
        resource.setrlimit(resource.RLIMIT_NOFILE, (most, most))
        many, holder = (
            subprocess.Popen(one, stdout=subprocess.PIPE, start_new_session=True)
            for one in (line, [sys.executable, '-c', HOLDS, self.db])
        )
        try:
            assert many.stdout is not None and holder.stdout is not None
            self.assertEqual(len(many.stdout.read(count)), count)
            holder.stdout.read(1)
            before = resource.getrusage(resource.RUSAGE_CHILDREN)
            told = ran('why', '--db', self.db)
            after = resource.getrusage(resource.RUSAGE_CHILDREN)
        finally:
            resource.setrlimit(resource.RLIMIT_NOFILE, (soft, most))
            for one in (many, holder):
                os.killpg(one.pid, signal.SIGKILL)
                one.communicate()
        taken = after.ru_utime + after.ru_stime - before.ru_utime - before.ru_stime
        self.assertLess(taken, SECONDS)
        self.assertIn(f'the program {holder.pid} ', told.out)

    def test_a_lease(self) -> None:
        """It has a lease of its file, which root looks into: no program waits until it has lost
        that."""
        for name in ('why', 'map'):
            with self.subTest(name):
                self.fill()
                os.chown(self.db, NOBODY, NOBODY)
                line = [*AS_NOBODY, '/usr/bin/python3', '-c', LEASES]
                with open(self.db, 'r+b') as file:
                    holder = subprocess.Popen(line, stdin=file, stdout=subprocess.PIPE)
                try:
                    assert holder.stdout is not None
                    self.assertEqual(holder.stdout.read(1), b'.')
                    told = ran(name, '--db', self.db)
                    self.assertEqual(self.leases(), 1)
                finally:
                    holder.kill()
                    holder.communicate()
                self.assertEqual(told.status, 1)
                wanted = f'the program {holder.pid} ' if name == 'why' else 'database is locked'
                self.assertIn(wanted, told.text)

    def leases(self) -> int:
        """Returns how many leases of the file are kept."""
        file = f':{os.stat(self.db).st_ino}'
        with open('/proc/locks', encoding='ascii') as locks:
            return sum('LEASE' in line and line.split()[5].endswith(file) for line in locks)

    @unittest.skipIf(missing('systemd-tmpfiles'), missing('systemd-tmpfiles'))
    def test_a_lock_of_the_instructions(self) -> None:
        """It locks the folder of the dispatcher's instructions, or reads them: who opens a node has
        not to wait, the dispatcher reads them, and the board writes there by its user alone."""
        places = {PLACE, f'{PLACE}/instructions'}
        with self.made(places) as root:
            self.check_instructions(root + PLACE + '/instructions')

    @contextlib.contextmanager
    def made(self, folders: set[str]) -> Iterator[str]:
        """Another root, in which systemd has made folders of tmpfiles.conf for the users above."""
        users = {'desk-board': BOARD, 'desk-dispatch': MEMBER, 'desk-gateway': GATEWAY}
        rows = [f'{name}:x:{user}:{user}::/:/\n' for name, user in users.items()]
        self.write('passwd', 'root:x:0:0::/:/\n' + ''.join(rows))
        rows = [f'{name}:x:{user}:\n' for name, user in users.items()]
        self.write('group', 'root:x:0:\n' + ''.join(rows))
        with tempfile.TemporaryDirectory() as root, open(TMPFILES, encoding='utf-8') as file:
            os.chmod(root, 0o755)
            os.mkdir(os.path.join(root, 'etc'))
            for name in ('passwd', 'group'):
                shutil.copy(self.path(name), os.path.join(root, 'etc'))
            lines = [row for row in file if row.startswith('d ') and row.split()[1] in folders]
            self.assertEqual(len(lines), len(folders))
            self.write('conf', ''.join(lines))
            line = ['systemd-tmpfiles', f'--root={root}', '--create', self.path('conf')]
            subprocess.run(line, check=True)
            yield root

    def check_instructions(self, folder: str) -> None:
        """Who may do what with the instructions in a folder."""
        path = os.path.join(folder, 'instructions.csv')
        with open(path, 'w', encoding='utf-8') as file:
            file.write(CLOSED)
        os.chmod(path, 0o644)
        with subprocess.Popen(
            [*AS_NOBODY, 'flock', folder, 'sh', '-c', 'echo; exec sleep 600'],
            stdout=subprocess.PIPE,
            stderr=subprocess.DEVNULL,
            start_new_session=True,
        ) as locker:
            assert locker.stdout is not None
            locker.stdout.readline()
            told = ran('open', 'N7', '--instructions', path)
            with contextlib.suppress(ProcessLookupError):
                os.killpg(locker.pid, 9)
        self.assertEqual((told.status, told.text), (0, 'node N7 is open\n'))
        member, board = as_user(MEMBER), as_user(BOARD, NOBODY)
        for who, what, status in (
            (AS_NOBODY, ['cat', path], 1),
            (member, ['cat', path], 0),
            (member, ['touch', os.path.join(folder, 'other')], 1),
            (board, ['touch', os.path.join(folder, 'other')], 0),
        ):
            done = subprocess.run([*who, *what], capture_output=True, check=False)
            self.assertEqual(done.returncode, status, (who, what))

    @unittest.skipIf(missing('systemd-tmpfiles'), missing('systemd-tmpfiles'))
    def test_why_jobs_wait(self) -> None:
        """It reads what the dispatcher tells the board of jobs and vehicles, or sees that there is
        something; the board alone reads it, in the groups of its unit."""
        words = said('nulvrader-dispatch.service', 'ExecStart').split()
        told = words[words.index('--waits') + 1]
        folder = os.path.dirname(told)
        self.assertIn(f' --waits {told} ', said('nulvrader-board.service', 'ExecStart'))
        with self.made({folder, '/run/desk-dispatch'}) as root:
            tools = shutil.copytree(TOOLS, os.path.join(root, 'tools'), symlinks=True)
            line = [*as_user(MEMBER), '/usr/bin/python3', '-c', TELLS, root + told]
            subprocess.run(line, cwd=tools, check=True)
            self.assertIn(b'no vehicle', self.read(root + told))
            groups = said('nulvrader-board.service', 'SupplementaryGroups').split()
            board = as_user(BOARD, NOBODY, BOARD if 'desk-board' in groups else NOBODY)
            for who, wanted in (
                (AS_NOBODY, [1, 1, 1]),
                (as_user(GATEWAY), [1, 1, 0]),
                (board, [0, 0, 1]),
            ):
                asked = (['cat', told], ['ls', folder], ['ls', '/run/desk-dispatch'])
                lines = [[*who, what, root + path] for what, path in asked]
                ends = [subprocess.run(one, capture_output=True, check=False) for one in lines]
                self.assertEqual([min(end.returncode, 1) for end in ends], wanted, who)

    def test_a_package_that_is_there_already(self) -> None:
        """It makes the package first, in the folder where root will put it, and may then write into
        it: root's is another file."""
        os.mkdir(self.path('bin'))
        for name, text in (
            ('dpkg-buildpackage', 'echo package > ../nulvrader_0_amd64.deb'),
            ('help2man', 'echo page'),
        ):
            self.write(os.path.join('bin', name), f'#!/bin/sh\n{text}\n')
            os.chmod(self.path('bin', name), 0o755)
        with tempfile.TemporaryDirectory() as shared:
            os.chmod(shared, 0o1777)
            made = os.path.join(shared, 'nulvrader_0_amd64.deb')
            line = [*AS_NOBODY, 'sh', '-c', 'touch "$1"; chmod 666 "$1"', 'sh', made]
            subprocess.run(line, check=True)
            line = [os.path.join(ROOT, 'dev', 'make-deb'), '--program', DESK, '--to', shared]
            env = {**os.environ, 'PATH': f'{self.path("bin")}:{os.environ["PATH"]}'}
            subprocess.run(line, check=True, stdout=subprocess.DEVNULL, env=env)
            found = os.stat(made)
            self.assertEqual((found.st_uid, found.st_mode & stat.S_IWOTH), (0, 0))
            self.assertEqual(self.read(made), b'package\n')
            self.assertEqual(os.listdir(shared), [os.path.basename(made)])
