"""Shows what `tools/standby` reads of the volume and the cluster, and that its resource agent
does as Pacemaker asks."""
from __future__ import annotations

import os
import re
import shutil
import signal
import subprocess
import tempfile
import unittest

from machines import volume
from nulvrader.desk.client import Desk, NoAnswer
from nulvrader.standby import checks, cluster, gluster, lock, status
from nulvrader.standby.gluster import Brick, Client, Unknown, Volume
from tests.support.desks import DESK
from tests.support.programs import PATIENCE, until
from tests.support.standing_by import EXAMPLES, Folder, STANDBY

QUORUM = """Quorum information
------------------
Date:             Mon Nov 30 23:59:00 2026
Nodes:            3
Quorate:          Yes

Votequorum information
----------------------
Expected votes:   3
Highest expected: 3
Total votes:      2
Quorum:           2
Flags:            Quorate
"""
PROPERTIES = '<crm_config><cluster_property_set>%s</cluster_property_set></crm_config>'
CLIENTS = """[xlator.protocol.client.desk-client-0.priv]
fd.0.remote_fd = 0
connected = 1
[xlator.protocol.client.desk-client-1.priv]
fd.0.remote_fd = -1
fd.1.remote_fd = 2
connected = 1
[xlator.protocol.client.desk-client-2.priv]
connected = 0
"""
# `gluster --xml volume status desk` where a copy has no port; a helper never has one.
NODE = """<node><hostname>%s</hostname><path>%s</path><status>1</status>
<port>%s</port><ports><tcp>%s</tcp><rdma>N/A</rdma></ports><pid>1403</pid></node>
"""
NODES = ''.join(
    NODE % (host, path, port, port)
    for host, path, port in (
        ('10.77.0.1', '/srv/brick/desk', '55917'),
        ('10.77.0.2', '/srv/brick/desk', 'N/A'),
        ('Self-heal Daemon', 'localhost', 'N/A'),
    )
)
BRICKS = f'<cliOutput><opRet>0</opRet><volStatus>{NODES}</volStatus></cliOutput>'.encode()
SHELL = '/usr/lib/ocf/lib/heartbeat/ocf-shellfuncs'
NEEDED = os.path.exists(SHELL) and os.geteuid() == 0 and shutil.which('setpriv') is not None


@unittest.skipUnless(NEEDED, 'needs root and resource-agents of Pacemaker')
class Agent(Folder):
    """The resource agent, as Pacemaker calls it."""

    def call(self, action: str, **more: str) -> int:
        """Calls it, and returns its status."""
        env = {
            **os.environ, 'OCF_ROOT': '/usr/lib/ocf', 'OCF_RESOURCE_INSTANCE': 'desk',
            'HA_RSCTMP': self.folder, 'OCF_RESKEY_program': DESK, 'OCF_RESKEY_tool': STANDBY,
            'OCF_RESKEY_db': self.db, 'OCF_RESKEY_socket': self.path('run/desk.sock'),
            'OCF_RESKEY_user': 'root', 'OCF_RESKEY_group': 'root', 'OCF_RESKEY_within': '120',
            'OCF_RESKEY_mount': '/',
            'HA_logfile': self.path('log'), 'HA_LOGFACILITY': 'none', **more,
        }  # fmt: skip
        line = ['sh', os.path.join(EXAMPLES, 'desk'), action]
        null = subprocess.DEVNULL
        done = subprocess.run(line, env=env, stdin=null, stdout=null, stderr=null, timeout=900)
        return done.returncode

    def test_it(self) -> None:
        """It starts and serves; one that was killed has failed, with its desk; a stop is a stop."""
        self.addCleanup(self.call, 'stop')
        self.assertEqual(self.call('monitor'), status.STOPPED)
        self.assertEqual(self.call('start'), status.RUNS)
        self.assertEqual(self.call('start'), status.RUNS)
        self.assertEqual(self.call('monitor'), status.RUNS)
        desk = Desk(f'unix:{self.path("run/desk.sock")}', timeout=PATIENCE)
        desk.register_load('L1')
        with open(self.path('nulvrader-desk.pid'), encoding='utf-8') as file:
            os.kill(int(file.read().split()[0]), signal.SIGKILL)
        until(lambda: self.call('monitor') == status.STOPPED, 'it is seen')
        with self.assertRaises(NoAnswer):
            desk.load('L1')
        self.assertEqual(self.call('start'), status.RUNS)
        self.assertEqual(desk.load('L1').place, 'checking')
        self.assertEqual(self.call('stop'), status.RUNS)
        self.assertEqual(self.call('stop'), status.RUNS)
        self.assertEqual(self.call('monitor'), status.STOPPED)
        self.assertFalse(os.path.exists(self.path('run/desk.sock')))
        self.assertTrue(lock.is_free(self.db))

    def test_a_volume_that_does_not_answer(self) -> None:
        """A start fails after some seconds, so that another machine is tried, and leaves nothing
        behind."""
        self.addCleanup(self.call, 'stop')
        more = {'OCF_RESKEY_db': self.path('none/warehouse.db'), 'OCF_RESKEY_patience': '1'}
        self.assertEqual(self.call('start', **more), status.FAILED)
        self.assertEqual(self.call('monitor', **more), status.STOPPED)

    def test_a_volume_that_is_not_mounted(self) -> None:
        """A start fails, and makes no file in the folder where the volume should be."""
        self.addCleanup(self.call, 'stop')
        more = {'OCF_RESKEY_mount': '', 'OCF_RESKEY_patience': '1'}
        self.assertEqual(self.call('start', **more), status.FAILED)
        self.assertEqual([name for name in os.listdir(self.folder) if 'warehouse' in name], [])


class VolumeWords(unittest.TestCase):
    """What is said of a volume, and what of it is wrong."""

    def test_the_example(self) -> None:
        """The options of the example are well-formed, and have what the promise stands on."""
        options = gluster.read_options(gluster.OPTIONS)
        self.assertEqual(options['client.strict-locks'], 'on')
        self.assertEqual(options['cluster.quorum-type'], 'auto')
        self.assertEqual(options['performance.write-behind'], 'off')
        self.assertEqual(options['cluster.post-op-delay-secs'], '0')

    def test_a_volume(self) -> None:
        bricks = [f'm{one}:/brick' for one in (1, 2, 3)]
        good = Volume('Replicate', 'Started', 3, 0, bricks, {'client.strict-locks': 'enable'})
        wanted = {'client.strict-locks': 'on'}
        self.assertEqual(checks.wrong_volume(good, wanted), [])
        self.assertEqual(len(checks.wrong_volume(good, {**wanted, 'nfs.disable': 'on'})), 1)
        good.options['client.strict-locks'] = 'off'
        self.assertIn('has to be on', checks.wrong_volume(good, wanted)[0])
        twice = Volume('Replicate', 'Created', 3, 0, ['m1:/a', 'm1:/b', 'm2:/c'], {})
        self.assertEqual(len(checks.wrong_volume(twice, {})), 2)
        self.assertEqual(len(checks.wrong_volume(Volume('', 'Started', 2, 0, bricks[:2]), {})), 1)

    def test_bricks(self) -> None:
        self.assertEqual(checks.wrong_bricks([Brick('a', True)]), [])
        self.assertEqual(len(checks.wrong_bricks([Brick('a', True), Brick('b', False)])), 1)
        self.assertEqual(len(checks.wrong_bricks([])), 1)
        found = gluster.read_bricks(gluster.parse(BRICKS))
        self.assertEqual(
            [(one.is_online, one.has_port) for one in found], [(True, True), (True, False)]
        )
        (wrong,) = checks.wrong_bricks(found)
        self.assertIn('the copy 10.77.0.2:/srv/brick/desk has no port', wrong)
        self.assertEqual(len(checks.unhealed({'a': 0, 'b': 3, 'c': None})), 2)

    def test_clients(self) -> None:
        """A mount that isn't connected, and files that are not open at a copy that was away."""
        found = gluster.read_clients(CLIENTS)
        self.assertEqual(
            [(one.is_connected, one.closed) for one in found], [(True, 0), (True, 1), (False, 0)]
        )
        self.assertEqual(len(checks.wrong_clients(found)), 2)
        self.assertEqual(checks.wrong_clients([Client('a', True)]), [])

    def test_flags_of_the_mount(self) -> None:
        """The mount of the example has the option without which files are read as they were, and a
        mount without it is told."""
        self.assertIn('--auto-invalidation=on', volume.flags())
        self.assertEqual(checks.wrong_flags(['glusterfs', '--auto-invalidation=on', '/srv']), [])
        for flags in (
            ['glusterfs', '/srv'],
            ['glusterfs', '--auto-invalidation=off', '/srv'],
            None,
        ):
            self.assertEqual(len(checks.wrong_flags(flags)), 1)
        self.assertIsNone(gluster.flags_of('/no/such/mount'))

    def test_settings_of_the_daemon(self) -> None:
        """Those of the example are right; those of Debian, without its last option, are not."""
        path = os.path.join(EXAMPLES, 'glusterd.vol')
        self.assertEqual(checks.wrong_daemon(path), [])
        with open(path, encoding='utf-8') as file:
            lines = [line for line in file if 'tcp-user-timeout' not in line]
        with tempfile.NamedTemporaryFile('w', encoding='utf-8') as other:
            other.writelines([*lines, '# option transport.tcp-user-timeout 3\n'])
            other.flush()
            self.assertIn('has no transport', checks.wrong_daemon(other.name)[0])
        self.assertIn('can not be read', checks.wrong_daemon('/no/such/file')[0])

    def test_answers(self) -> None:
        answer = gluster.parse(
            b'<cliOutput><opRet>0</opRet><volInfo><volumes><volume><name>desk</name>'
            b'<statusStr>Started</statusStr><typeStr>Replicate</typeStr>'
            b'<replicaCount>3</replicaCount>'
            b'<arbiterCount>0</arbiterCount><bricks><brick>x<name>m1:/b</name></brick></bricks>'
            b'<options><option><name>nfs.disable</name><value>on</value></option></options>'
            b'</volume></volumes></volInfo></cliOutput>'
        )
        found = gluster.read_volume(answer, 'desk')
        self.assertEqual(
            (found.replicas, found.bricks, found.options), (3, ['m1:/b'], {'nfs.disable': 'on'})
        )
        with self.assertRaisesRegex(Unknown, 'no volume other'):
            gluster.read_volume(answer, 'other')
        with self.assertRaisesRegex(Unknown, 'Volume does not exist'):
            gluster.parse(b'<a><opRet>-1</opRet><opErrstr>Volume does not exist</opErrstr></a>')


class ClusterWords(unittest.TestCase):
    def test_quorum(self) -> None:
        found = cluster.read_quorum(QUORUM)
        self.assertEqual((found.expected, found.total, found.is_quorate), (3, 2, True))
        self.assertFalse(cluster.read_quorum(QUORUM.replace('Yes', 'No')).is_quorate)
        with self.assertRaises(Unknown):
            cluster.read_quorum('Cannot initialize CMAP service\n')

    def test_properties(self) -> None:
        """Fencing that is off, and a cluster that goes on without a majority, are wrong."""
        cases: tuple[tuple[dict[str, str], int], ...] = (
            ({'stonith-enabled': 'true', 'no-quorum-policy': 'stop'}, 0),
            ({}, 0),
            ({'stonith-enabled': 'false'}, 1),
            ({'no-quorum-policy': 'ignore'}, 1),
            ({'stonith-watchdog-timeout': '15s'}, 1),
            ({'stonith-watchdog-timeout': '15s', 'have-watchdog': 'true'}, 0),
            ({'stonith-watchdog-timeout': '10', 'have-watchdog': 'true'}, 1),
            ({'maintenance-mode': 'true'}, 1),
        )
        for pairs, wrong in cases:
            text = ''.join(
                f'<nvpair name="{one}" value="{value}"/>' for one, value in pairs.items()
            )
            found = cluster.read_properties(PROPERTIES % text)
            self.assertEqual(len(cluster.wrong_properties(found)), wrong, pairs)
        with self.assertRaises(Unknown):
            cluster.read_properties('')

    def test_times(self) -> None:
        """Times of the cluster, and of sbd: its own where nothing is said."""
        for text, wanted in (('15', 15), ('15s', 15), ('900ms', 0.9), ('2min', 120), ('1h', 3600)):
            self.assertEqual(cluster.seconds_of(text), wanted)
        self.assertEqual(cluster.seconds_of('-1'), 0)
        self.assertEqual(cluster.sbd_timeout(os.path.join(EXAMPLES, 'sbd')), 5)
        self.assertEqual(cluster.sbd_timeout('/no/such/file'), cluster.SBD_TIMEOUT)
        with open(os.path.join(EXAMPLES, 'cluster.crm'), encoding='utf-8') as file:
            (wait,) = re.findall(r'\bstonith-watchdog-timeout=(\S+)', file.read())
        wrong = cluster.wrong_properties(
            {'stonith-watchdog-timeout': wait, 'have-watchdog': 'true'}
        )
        self.assertEqual(wrong, [])


class Examples(unittest.TestCase):
    def test_the_agent(self) -> None:
        """It is a program of the shell, its description is XML, and has the parameters of the
        configuration."""
        agent = os.path.join(EXAMPLES, 'desk')
        self.assertEqual(subprocess.run(['sh', '-n', agent], check=False).returncode, 0)
        with open(agent, encoding='utf-8') as file:
            named = set(re.findall('<parameter name="([a-z]+)"', file.read()))
        with open(os.path.join(EXAMPLES, 'cluster.crm'), encoding='utf-8') as file:
            text = file.read()
        primitive = text.split('ocf:nulvrader:desk')[1].split('\n  op ')[0]
        self.assertLessEqual(set(re.findall(r'\b([a-z]+)=', primitive)), named)
        self.assertIn('stonith-enabled=true', text)
        self.assertIn('no-quorum-policy=stop', text)

    def test_the_address_goes_first(self) -> None:
        """A group stops its last member first."""
        with open(os.path.join(EXAMPLES, 'cluster.crm'), encoding='utf-8') as file:
            members = re.findall(r'^group \w+ (.*)$', file.read(), re.M)[0].split()
        self.assertEqual((members[0], members[-1]), ('desk', 'address'))

    def test_drbd(self) -> None:
        """What is configured besides for DRBD goes with cluster.crm: the file system is mounted in
        the folder of the desk's file, and the group that it is for is that of the desk. Comments of
        crm have no `--`."""
        texts = {}
        for name in ('cluster.crm', 'drbd.crm'):
            with open(os.path.join(EXAMPLES, name), encoding='utf-8') as file:
                texts[name] = file.read()
            comments = [line for line in texts[name].splitlines() if line.startswith('#')]
            self.assertEqual([line for line in comments if '--' in line], [])
        (db,) = re.findall(r'\bdb=(\S+)', texts['cluster.crm'])
        self.assertEqual(re.findall(r'\bdirectory=(\S+)', texts['drbd.crm']), [os.path.dirname(db)])
        (group,) = re.findall(r'^group (\w+) ', texts['cluster.crm'], re.M)
        self.assertIn(f'inf: {group} files', texts['drbd.crm'])

    @unittest.skipIf(shutil.which('drbdadm') is None, 'drbd-utils is not installed')
    def test_drbd_takes_its_file(self) -> None:
        """drbdadm reads desk.res as it stands: what it prints of it has each option."""
        path = os.path.join(EXAMPLES, 'desk.res')
        line = ['drbdadm', '-c', path, 'dump']
        done = subprocess.run(line, capture_output=True, text=True, check=False)
        self.assertEqual(done.returncode, 0, done)
        printed = {tuple(one.rstrip(';').split()) for one in done.stdout.splitlines()}
        for wanted in (('quorum', 'majority'), ('protocol', 'C'), ('on-no-quorum', 'io-error')):
            self.assertIn(wanted, printed)

    @unittest.skipIf(shutil.which('corosync') is None, 'corosync is not installed')
    def test_corosync(self) -> None:
        """Corosync takes the configuration."""
        line = ['corosync', '-t', '-c', os.path.join(EXAMPLES, 'corosync.conf')]
        done = subprocess.run(line, capture_output=True, text=True, check=False)
        self.assertNotIn('parse error', (done.stdout + done.stderr).lower())


if __name__ == '__main__':
    unittest.main()
