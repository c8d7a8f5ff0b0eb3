"""Shows that what the units of `examples/systemd` name is there, that they fit together, and that
systemd takes them."""
from __future__ import annotations

import os
import re
import shutil
import subprocess
import tempfile
import unittest

from nulvrader.admin import conf, units
from tests.support.programs import ROOT, TOOLS

FOLDER = os.path.join(ROOT, 'examples', 'systemd')
NAMES = sorted(name for name in os.listdir(FOLDER) if not name.endswith('.conf'))
SERVICES = [name for name in NAMES if name.endswith('.service')]
PROGRAM = os.path.abspath(os.environ.get('DESK', os.path.join(ROOT, 'build', 'desk')))


def text_of(name: str) -> str:
    """A file of the folder."""
    with open(os.path.join(FOLDER, name), encoding='utf-8') as file:
        return file.read()


def said(name: str, setting: str) -> list[str]:
    """The values of a setting of a unit, in their order."""
    return re.findall(f'^{setting}=(.*)$', text_of(name), re.M)


def rows(name: str) -> list[list[str]]:
    """The words of each line of a file that is no comment."""
    return [line.split() for line in text_of(name).splitlines() if line[:1] not in ('', '#')]


STANDBY = os.path.join(ROOT, 'examples', 'standby')
PAGES = ('README.md', 'docs/OPERATE.md', 'docs/TWO_MACHINES.md', 'docs/DECISIONS.md')
# A name that goes on behind a full stop is none, as of an option of GlusterFS.
UNIT = r'[\w@-]+\.(?:service|socket|timer|mount)\b(?!\.\w)'
# Units of Debian's packages that a page or an example names.
OF_DEBIAN = {
    'corosync.service',
    'glusterd.service',
    'mosquitto.service',
    'nginx.service',
    'pacemaker.service',
    'nftables.service',
    'sbd.service',
    'systemd-time-wait-sync.service',
}


def named_in(path: str) -> set[str]:
    """The units that a page or an example names: with their ends, to Pacemaker, and to
    systemctl."""
    with open(path, encoding='utf-8') as file:
        text = file.read()
    found = set(re.findall(UNIT, text))
    found |= {f'{name}.service' for name in re.findall(r'\bsystemd:([\w@-]+)', text)}
    lines = re.findall('`systemctl ([^`]+)`', text) + re.findall(r'\bsystemctl ([^`\n]+)\n', text)
    for line in lines:
        _, *words = re.split('[&|#]', line)[0].split()
        names = [word for word in words if re.fullmatch(r'[a-z][\w@.-]*', word)]
        found |= {name if '.' in name else f'{name}.service' for name in names}
    return found


class Pages(unittest.TestCase):
    def test_what_pages_and_examples_name(self) -> None:
        """Each unit that one of them names is there, so that nobody stops, disables or excludes
        one in vain."""
        known = {*NAMES, *os.listdir(STANDBY), *OF_DEBIAN}
        paths = [os.path.join(ROOT, name) for name in PAGES]
        paths += [os.path.join(STANDBY, name) for name in os.listdir(STANDBY)]
        for path in paths:
            self.assertLessEqual(named_in(path), known, path)

    def test_the_standby_excludes_the_desk(self) -> None:
        """systemd stops the desk of the package, and what listens on its socket, before that of the
        standby is started, and the page has it never started on two machines."""
        wanted = {name for name in NAMES if re.match('nulvrader-(desk|proxy)', name)}
        with open(os.path.join(STANDBY, 'desk-standby.service'), encoding='utf-8') as file:
            (line,) = re.findall('^Conflicts=(.*)$', file.read(), re.M)
        self.assertEqual(set(line.split()), wanted)
        with open(os.path.join(ROOT, 'docs', 'TWO_MACHINES.md'), encoding='utf-8') as file:
            (line,) = re.findall('^ *systemctl mask --now (.*)$', file.read(), re.M)
        self.assertEqual(set(line.split()), wanted)


class Names(unittest.TestCase):
    def test_users_and_groups(self) -> None:
        """Each user and group of a unit is made by sysusers.conf, and no other."""
        users = {name for kind, name, *_ in rows('sysusers.conf') if kind == 'u'}
        groups = {name for kind, name, *_ in rows('sysusers.conf') if kind == 'g'}
        named = {user for name in SERVICES for user in said(name, 'User')}
        self.assertEqual(named, users)
        found = {one for name in SERVICES for one in said(name, 'Group')}
        found |= {one for name in NAMES for one in said(name, 'SocketGroup')}
        for name in SERVICES:
            found |= {one for line in said(name, 'SupplementaryGroups') for one in line.split()}
        self.assertEqual(found - users, groups)
        system = {'root', 'adm', 'www-data'}
        owners = {one for _, _, _, *owner in rows('tmpfiles.conf') for one in owner}
        self.assertLessEqual(owners, users | groups | system)

    def test_folders(self) -> None:
        """tmpfiles.conf makes each folder of a unit, for its user and with its mode, and no other
        one in /var/lib but that of the instructions, where root and the board write, and which
        nobody but the dispatcher may open beside them."""
        made = {path: (mode, user) for _, path, mode, user, _ in rows('tmpfiles.conf')}
        state = {f'/var/lib/{one}' for name in SERVICES for one in said(name, 'StateDirectory')}
        found = {path for path in made if path.startswith('/var/lib/nulvrader/')}
        told = os.path.dirname(conf.DEFAULTS['NULVRADER_INSTRUCTIONS'])
        self.assertEqual(found, state | {told})
        self.assertEqual(made[told], ('0750', 'desk-board'))
        self.assertIn(
            f'd {told} 0750 desk-board desk-dispatch', text_of('tmpfiles.conf').splitlines()
        )
        self.assertIn(told, said('nulvrader-board.service', 'ReadWritePaths'))
        for name in SERVICES:
            for folder in said(name, 'StateDirectory'):
                (mode,), (user,) = said(name, 'StateDirectoryMode'), said(name, 'User')
                self.assertEqual(made[f'/var/lib/{folder}'], (mode, user))
        self.assertIn(said('nulvrader-backup.service', 'ReadWritePaths')[0], made)

    def test_the_configuration(self) -> None:
        """Each variable of a unit has its line in nulvrader.conf, and each line is used; what the
        programs take without the file is the same."""
        lines = dict(
            line.split('=', 1) for line in text_of('nulvrader.conf').splitlines() if line[:1] == 'N'
        )
        used = {one for name in SERVICES for one in re.findall(r'NULVRADER_[A-Z_]+', text_of(name))}
        self.assertEqual(used | set(conf.DEFAULTS), set(lines))
        for name, value in conf.DEFAULTS.items():
            self.assertEqual(lines[name], value)
        for name in SERVICES:
            if '$NULVRADER' in text_of(name) or '${NULVRADER' in text_of(name):
                self.assertEqual(said(name, 'EnvironmentFile'), [conf.PATH], name)

    def test_the_socket(self) -> None:
        """All units reach the desk by the one socket, which is forwarded to the desk's port."""
        (socket,) = said('nulvrader-proxy.socket', 'ListenStream')
        self.assertEqual(conf.DEFAULTS['NULVRADER_DESK'], f'unix:{socket}')
        for name in ('board', 'dispatch', 'gateway', 'backup'):
            unit = f'nulvrader-{name}.service'
            self.assertIn(' --desk ${NULVRADER_DESK} ', said(unit, 'ExecStart')[0])
            self.assertIn('desk-clients', said(unit, 'SupplementaryGroups')[0].split())
        self.assertIn(' --port ${NULVRADER_PORT} ', said('nulvrader-desk.service', 'ExecStart')[0])
        (line,) = said('nulvrader-proxy.service', 'ExecStart')
        self.assertEqual(line.split()[1], '127.0.0.1:${NULVRADER_PORT}')
        self.assertEqual(said('nulvrader-proxy.socket', 'SocketMode'), ['0660'])
        self.assertEqual(said('nulvrader-proxy.socket', 'RemoveOnStop'), ['yes'])

    def test_who_is_in_the_network_of_the_desk(self) -> None:
        """The desk and its proxy join it, and nothing else."""
        joined = [name for name in SERVICES if said(name, 'JoinsNamespaceOf')]
        self.assertEqual(joined, ['nulvrader-desk.service', 'nulvrader-proxy.service'])
        for name in joined:
            self.assertEqual(said(name, 'JoinsNamespaceOf'), ['nulvrader-network.service'])
            self.assertIn('nulvrader-network.service', said(name, 'Requires')[0].split())
            self.assertIn('nulvrader-network.service', said(name, 'After')[0].split())
        private = [name for name in SERVICES if said(name, 'PrivateNetwork') == ['yes']]
        with_network = [f'nulvrader-{name}.service' for name in ('gateway', 'webhooks')]
        self.assertEqual(private, [name for name in SERVICES if name not in with_network])

    def test_they_are_started_again(self) -> None:
        """However often one ends, it is started again; only the desk's own arguments end it for
        good."""
        for name in SERVICES:
            if said(name, 'Type') != ['oneshot']:
                self.assertEqual(said(name, 'Restart'), ['always'], name)
                self.assertEqual(said(name, 'StartLimitIntervalSec'), ['0'], name)
                ends = ['2'] if name == 'nulvrader-desk.service' else []
                self.assertEqual(said(name, 'RestartPreventExitStatus'), ends, name)

    def test_while_a_copy_is_put_back(self) -> None:
        """What fetches from the desk, or commands it, is not started then, at a boot either."""
        wanted = [f'!{units.MARK}']
        for name in SERVICES:
            stays = name in [f'nulvrader-{one}.service' for one in ('board', 'dispatch', 'gateway')]
            self.assertEqual(said(name, 'ConditionPathExists'), wanted if stays else [], name)

    def test_nothing_runs_as_root(self) -> None:
        """But for what says why the desk has ended, which has to see the programs of all users."""
        for name in SERVICES:
            lines = [
                line
                for kind in ('Condition', 'StartPre', 'Start', 'StopPost')
                for line in said(name, f'Exec{kind}')
            ]
            marked = [line for line in lines if re.match(r'[-@:]*[+!]', line)]
            self.assertEqual(len(marked), int(name == 'nulvrader-desk.service'), name)
            self.assertTrue(all(' exec /usr/bin/nulvrader why ' in line for line in marked))

    @unittest.skipIf(shutil.which('systemd-analyze') is None, 'no systemd-analyze here')
    def test_systemd_takes_them(self) -> None:
        """`systemd-analyze verify` finds no fault, with programs that are here."""
        with tempfile.TemporaryDirectory() as folder:
            for name in NAMES:
                text = text_of(name).replace('/usr/lib/nulvrader/desk', PROGRAM)
                with open(os.path.join(folder, name), 'w', encoding='utf-8') as file:
                    file.write(
                        text.replace(
                            '/usr/bin/nulvrader', os.path.abspath(f'{TOOLS}/nulvrader-cli')
                        )
                    )
            standby = os.path.join(STANDBY, 'desk-standby.service')
            with open(standby, encoding='utf-8') as file:
                text = file.read().replace('/usr/lib/nulvrader/tools/', f'{TOOLS}/')
            with open(os.path.join(folder, 'desk-standby.service'), 'w', encoding='utf-8') as file:
                file.write(text)
            paths = [os.path.join(folder, name) for name in os.listdir(folder)]
            env = {**os.environ, 'SYSTEMD_UNIT_PATH': f'{folder}:'}
            line = ['systemd-analyze', 'verify', '--man=no', *paths]
            done = subprocess.run(line, capture_output=True, text=True, check=False, env=env)
        lines = [one for one in done.stderr.splitlines() if folder in one or 'nulvrader' in one]
        self.assertEqual(lines, [])


if __name__ == '__main__':
    unittest.main()
