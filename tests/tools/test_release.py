"""Shows, in a small tree over a stand-in for `rt`, that `dev/release` writes the release, that
`./desk` runs it where the sources are the same, and that `./check` compares it with the program
that the gate has built."""
import os
import pathlib
import resource
import shutil
import subprocess
import tempfile
import unittest
from collections.abc import Callable
from unittest import mock

from tests.support.desk_tree import ECHO, PRINTED, REPLAY, TOOLS, Tree
from tests.support.programs import ROOT, module

RELEASED = 'desk: proved in release 0.1.0, of these sources\n'
PROGRAM = 'crates/agv_app/out/agv_app'
KIT = '#!/bin/sh\nif [ "$1" = version ]; then echo "%s"; else echo "2 passed, 0 failed"; fi\n'
"""A stand-in for `rt` that names itself and passes."""
GATE = 'rt: all proved\n7 passed, 0 failed\n'
DAMAGED = 'desk: release/ is damaged, so it is not run: '


class Released(Tree):
    """A tree whose program has a release."""

    def setUp(self) -> None:
        super().setUp()
        for tool in ('mktemp', 'nproc', 'tail', 'tee'):
            os.symlink(str(shutil.which(tool)), os.path.join(self.bin, tool))
        shutil.copy(os.path.join(ROOT, 'check'), os.path.join(self.top, 'check'))
        self.write('tests/run.py', 'print("3 passed, 0 failed")\n')
        rt = '#!/bin/sh\necho "a kit logic 1234"\n'
        self.real_rt = self.read(os.path.join(self.kit, 'bin', 'rt'))
        self.write(os.path.join(self.kit, 'bin', 'rt'), rt, 0o755)
        self.write(
            os.path.join(self.kit, 'toolchain/bin/clang'), '#!/bin/sh\necho clang 1\n', 0o755
        )
        self.write(PROGRAM, ECHO, 0o755)
        self.write('gate.log', GATE)
        self.assertEqual(self.release('--gate', 'gate.log')[0], 0)
        self.write(os.path.join(self.kit, 'bin', 'rt'), self.real_rt, 0o755)

    def release(self, *words: str) -> tuple[int, str]:
        """Runs `dev/release`: its status, and what it says."""
        line = [os.path.join(self.top, 'dev', 'release'), *words]
        done = subprocess.run(
            line, env={'PATH': self.bin}, cwd=self.top, capture_output=True, text=True
        )
        return done.returncode, done.stdout + done.stderr

    def check(self, kit: str = 'a kit logic 1234') -> tuple[int, str]:
        """Runs `./check` over an `rt` of this name that passes: its status, and its last line."""
        self.write(os.path.join(self.kit, 'bin', 'rt'), KIT % kit, 0o755)
        line = [os.path.join(self.top, 'check')]
        done = subprocess.run(line, env={'PATH': self.bin}, capture_output=True, text=True)
        self.write(os.path.join(self.kit, 'bin', 'rt'), self.real_rt, 0o755)
        return done.returncode, done.stdout.splitlines()[-1]

    def change(self, path: str, at: int = -1) -> None:
        """Changes one byte of a file."""
        path = os.path.join(self.top, path)
        with open(path, 'rb') as file:
            data = bytearray(file.read())
        data[at] ^= 1
        with open(path, 'wb') as file:
            file.write(data)

    def proves(self) -> str:
        """The program is proved and built, and not taken of the release; what was said before."""
        status, out, said = self.run_desk(*REPLAY)
        self.assertEqual((status, out), (3, PRINTED))
        self.assertIn('proved and built in ', said)
        self.assertNotIn('proved in release', said)
        return said

    def test_what_it_has(self) -> None:
        self.assertEqual(
            sorted(os.listdir(os.path.join(self.top, 'release'))),
            ['RELEASE', 'SHA256SUMS', 'desk.gz', 'sources.sha256'],
        )
        for folder, sums in (('.', 'release/sources.sha256'), ('release', 'SHA256SUMS')):
            line = ['sha256sum', '--check', '--strict', '--quiet', sums]
            subprocess.run(line, cwd=os.path.join(self.top, folder), check=True)
        listed = [line.split('  ')[1] for line in self.read('release/sources.sha256').splitlines()]
        crates = [f'crates/{name}' for name in ('agv_app', 'agv_first', 'agv_middle')]
        parts = [
            f'{crate}/{part}'
            for crate in crates
            for part in ('src/lib.rt', 'specs/Lib.antt', 'proofs/Lib.antt')
        ]
        self.assertEqual(
            sorted(listed), sorted(['HANDLES', 'crates.txt', 'crates/agv_app/stdin', *parts])
        )
        told = self.read('release/RELEASE').splitlines()
        self.assertEqual(
            [line for line in told if not line.startswith('program: ')],
            [
                'version: 0.1.0',
                'kit: a kit logic 1234',
                'compiler: clang 1',
                'gate: 7 passed, 0 failed',
            ],
        )

    def test_it_is_run_where_the_sources_are_the_same(self) -> None:
        """At once, by nothing but a shell; what `./desk` is told is handed on."""
        os.remove(os.path.join(self.bin, 'rt'))
        os.remove(os.path.join(self.bin, 'python3'))
        for _ in range(2):
            self.assertEqual(self.run_desk(*REPLAY), (3, PRINTED, RELEASED))
        self.assertEqual(os.listdir(os.path.join(self.top, 'build')), ['release'])
        self.assertEqual(os.listdir(os.path.join(self.top, 'build', 'release')), ['desk'])
        self.assertEqual(self.calls(), [])

    def test_dates_and_what_is_no_source_do_not_matter(self) -> None:
        for path in ('crates/agv_app/src/lib.rt', 'crates/agv_first/must-fail/one.edit', 'desk'):
            os.utime(os.path.join(self.top, path), (5_000_000_000, 5_000_000_000))
        for path in (
            'crates/agv_first/must-fail/one.edit',
            'crates/agv_first/out/old',
            'crates/agv_middle_tests/src/lib.rt',
        ):
            self.change(path)
        self.assertEqual(self.run_desk(*REPLAY), (3, PRINTED, RELEASED))

    def test_prove(self) -> None:
        """`./desk --prove` takes no release; what it has proved is run from then on."""
        status, out, said = self.run_desk('--prove', *REPLAY)
        self.assertEqual((status, out), (3, PRINTED))
        self.assertIn('proved and built in ', said)
        self.assertEqual(self.run_desk(*REPLAY), (3, PRINTED, ''))

    def test_unproved(self) -> None:
        """`./desk --unproved` takes no release either."""
        self.note('no-module', '')
        self.assertNotIn('release', self.run_desk('--unproved', *REPLAY)[2])

    def test_other_sources(self) -> None:
        """A byte of a source, a source more, one less, another list of crates: nothing of the
        release is run."""
        changes: list[Callable[[], object]] = [
            lambda: self.change('crates/agv_first/proofs/Lib.antt'),
            lambda: self.change('HANDLES'),
            lambda: self.write('crates/agv_middle/src/more.rt', 'text'),
            lambda: os.remove(os.path.join(self.top, 'crates/agv_app/stdin')),
            lambda: self.write('crates.txt', self.read('crates.txt') + '\n'),
            lambda: os.rename(
                os.path.join(self.top, 'crates/agv_app/src/lib.rt'),
                os.path.join(self.top, 'crates/agv_app/src/a b\n.rt'),
            ),
        ]
        for number, change in enumerate(changes):
            with self.subTest(number):
                self.tearDown()
                self.doCleanups()
                self.setUp()
                change()
                self.assertNotIn('proved in release', self.run_desk(*REPLAY)[2])
                self.assertIn('of other sources: nothing is compared', self.release('--check')[1])
                self.assertEqual(self.check(), (0, '5 passed, 0 failed'))

    def test_a_changed_byte_of_the_release(self) -> None:
        for name in ('desk.gz', 'RELEASE', 'sources.sha256', 'SHA256SUMS'):
            with self.subTest(name):
                self.tearDown()
                self.doCleanups()
                self.setUp()
                self.change(f'release/{name}', 3)
                said = self.proves()
                self.assertEqual(said.startswith(DAMAGED), name != 'sources.sha256')
                self.assertEqual(self.check(), (1, '5 passed, 1 failed'))

    def test_another_program_with_its_own_sums(self) -> None:
        """Who changes the program and all its sums is found by the gate."""
        self.write('other', ECHO.replace('exit 3', 'exit 4'), 0o755)
        self.write(os.path.join(self.kit, 'bin', 'rt'), '#!/bin/sh\necho a kit logic 1234\n', 0o755)
        self.assertEqual(self.release('--gate', 'gate.log', '--program', 'other')[0], 0)
        self.assertEqual(self.run_desk(*REPLAY)[0], 4)
        status, said = self.release('--check')
        self.assertEqual(status, 1)
        self.assertIn('the program of release 0.1.0, of these sources, is not ', said)
        self.assertEqual(self.check(), (1, '5 passed, 1 failed'))

    def test_the_gate_compares(self) -> None:
        self.assertEqual(self.check(), (0, '5 passed, 0 failed'))
        self.assertEqual(
            self.release('--check'),
            (0, 'release: the program is that of release 0.1.0, to the byte\n'),
        )
        self.change(PROGRAM)
        self.assertEqual(self.check(), (1, '5 passed, 1 failed'))
        os.remove(os.path.join(self.top, PROGRAM))
        self.assertEqual(self.check(), (1, '5 passed, 1 failed'))

    def test_another_kit(self) -> None:
        """It may write other bytes. Then the two programs are compared by what they answer: one
        that answers an example differently is found, and so is one if there are no examples."""
        self.write(PROGRAM, ECHO + '# other bytes, the same answers\n', 0o755)
        self.assertEqual(self.check('another kit'), (1, '5 passed, 1 failed'))
        self.write('examples/one.http', 'GET / HTTP/1.1\n\n')
        self.assertEqual(self.check('another kit'), (0, '5 passed, 0 failed'))
        self.assertEqual(self.check(), (1, '5 passed, 1 failed'))
        self.write(PROGRAM, ECHO.replace('exit 3', 'exit 4'), 0o755)
        self.assertEqual(self.check('another kit'), (1, '5 passed, 1 failed'))

    def test_the_package_has_it(self) -> None:
        """`dev/make-deb` takes it if it is whole and of these sources, and nothing else."""
        maker = module('make-deb', 'dev')
        self.enterContext(mock.patch.object(maker, 'TOP', pathlib.Path(self.top)))
        self.assertEqual(maker.released(), ECHO.encode())
        for path, why in (
            ('release/desk.gz', 'is damaged'),
            ('release/RELEASE', 'is damaged'),
            ('crates/agv_app/src/lib.rt', 'of other sources'),
        ):
            self.change(path, 3)
            self.assertRaisesRegex(maker.NoPackage, why, maker.released)
            self.change(path, 3)
        os.remove(os.path.join(self.top, 'release', 'SHA256SUMS'))
        self.assertRaisesRegex(maker.NoPackage, 'there is no release', maker.released)

    def test_what_is_unpacked_is_looked_at(self) -> None:
        self.run_desk(*REPLAY)
        self.change('build/release/desk')
        self.assertEqual(self.run_desk(*REPLAY), (3, PRINTED, RELEASED))

    def test_a_folder_where_others_may_write(self) -> None:
        """No program is run from there, and none is unpacked there, but that is said; what is
        unpacked may be written by nobody else."""
        path = os.path.join(self.top, 'build', 'release')
        old = os.umask(0o002)
        try:
            self.assertEqual(self.run_desk(*REPLAY)[0], 3)
        finally:
            os.umask(old)
        found = [os.path.join(self.top, 'build'), path, os.path.join(path, 'desk')]
        self.assertEqual([os.stat(one).st_mode & 0o022 for one in found], [0, 0, 0])
        for one in found:
            with self.subTest(one):
                os.chmod(one, 0o775)
                status, printed, said = self.run_desk(*REPLAY)
                self.assertEqual((status, printed), (1, ''))
                self.assertIn('others may put another program into', said)
                os.chmod(one, 0o755)
        os.rename(path, f'{path}-other')
        os.symlink(f'{path}-other', path)
        self.assertEqual(self.run_desk(*REPLAY)[0], 1)

    def test_no_release_is_made_of_a_gate_that_failed(self) -> None:
        for log in (
            '',
            '7 passed, 1 failed\n',
            '7 passed, 0 failed\nmore\n',
            '17 passed, 0 failed, or not\n',
        ):
            self.write('gate.log', log)
            status, said = self.release('--gate', 'gate.log')
            self.assertEqual(
                (status, said),
                (1, 'release: the last line of gate.log is not that of a gate that has passed\n'),
            )

    def test_no_release_is_made_of_an_old_program(self) -> None:
        os.utime(os.path.join(self.top, PROGRAM), (1, 1))
        status, said = self.release('--gate', 'gate.log')
        self.assertEqual(status, 1)
        self.assertIn('is older than its sources', said)

    def test_two_programs(self) -> None:
        other = os.path.join(self.work, 'other')
        shutil.copytree(self.top, other)
        status, said = self.release('--compare', other)
        self.assertEqual(status, 0)
        self.assertIn('are the same: ', said)
        self.change(PROGRAM, 4)
        status, said = self.release('--compare', os.path.join(other, PROGRAM))
        self.assertEqual(status, 1)
        self.assertIn(f'the file: 1 of {len(ECHO)} bytes, the first at 0x4\n', said)


def why_not() -> str:
    """Why nothing is asked of the release of this repository; nothing if it is."""
    if not os.path.exists(os.path.join(ROOT, 'release')):
        return 'there is no release'
    with open(os.path.join(ROOT, 'release', 'sources.sha256'), 'rb') as file:
        listed = file.read()
    line = [os.path.join(ROOT, 'dev', 'sources')]
    if subprocess.run(line, stdout=subprocess.PIPE, check=True).stdout != listed:
        return 'the release is of other sources'
    return '' if os.path.exists(os.path.join(ROOT, '.git')) else 'this is no repository of git'


@unittest.skipIf(why_not(), why_not())
class OfThisRepository(unittest.TestCase):
    def test_it_is_as_it_was_made(self) -> None:
        line = ['sha256sum', '--check', '--strict', '--quiet', 'SHA256SUMS']
        done = subprocess.run(
            line, cwd=os.path.join(ROOT, 'release'), capture_output=True, text=True
        )
        self.assertEqual((done.returncode, done.stdout), (0, ''))

    def test_a_clean_clone_answers_at_once(self) -> None:
        """Within three seconds of a processor, without the kit, Python or a network: from nothing,
        and again."""
        folder = tempfile.mkdtemp()
        self.addCleanup(shutil.rmtree, folder)
        subprocess.run(['git', 'clone', '--quiet', ROOT, f'{folder}/clone'], check=True)
        tools = (*TOOLS, 'cp')
        os.mkdir(f'{folder}/bin')
        for tool in (tool for tool in tools if shutil.which(tool)):
            os.symlink(str(shutil.which(tool)), f'{folder}/bin/{tool}')
        for _ in range(2):
            with open(os.path.join(ROOT, 'examples', 'transport.http'), 'rb') as said:
                before = resource.getrusage(resource.RUSAGE_CHILDREN)
                done = subprocess.run(
                    [f'{folder}/clone/desk', 'replay', '--db', 'memory', '--at', '1700000000000'],
                    stdin=said,
                    capture_output=True,
                    text=True,
                    env={'PATH': f'{folder}/bin'},
                )
            after = resource.getrusage(resource.RUSAGE_CHILDREN)
            self.assertEqual((done.returncode, done.stderr), (0, RELEASED))
            self.assertTrue(done.stdout.endswith('vehicle KIT/0001: 0\nleft: 0\n'))
            spent = after.ru_utime + after.ru_stime - before.ru_utime - before.ru_stime
            self.assertLess(spent, 3)


if __name__ == '__main__':
    unittest.main()
