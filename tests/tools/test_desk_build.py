"""Shows that the script `desk` builds the program, proved and without proofs, in a small tree over
a stand-in for `rt`."""
import contextlib
import os
import shutil
import signal
import time
import unittest

from tests.support.desk_tree import CRATES, PRINTED, REPLAY, Tree
from tests.support.programs import ROOT

NOT_PROVED = 'desk: not proved: this program was built without its proofs\n'
# The call of a build.
BUILD = ['workspace ci']


class Building(Tree):
    def left(self) -> list[str]:
        return sorted(os.listdir(os.path.join(self.top, 'build')))

    def want_no_rt(self) -> None:
        """The `rt` that was called last has ended."""
        self.assertFalse(
            os.path.exists('/proc/' + self.read(os.path.join(self.notes, 'process')).strip())
        )

    def test_it_builds_what_is_missing_and_runs_it(self) -> None:
        """The words and the exit status are handed on; what is built is what agv_app uses, the
        lowest first, and agv_app."""
        status, out, said = self.run_desk('replay', '--db', 'a b', '--at=5')
        self.assertEqual((status, out), (3, 'replay|--db|a b|--at=5|'))
        for number, crate in enumerate(('agv_first', 'agv_middle', 'agv_app'), 1):
            self.assertRegex(
                said, fr'desk: {crate} is proved, {number} of 3 crates, after \d+ min '
            )
        self.assertIn('proved and built in ', said)
        self.assertEqual(self.calls(), BUILD)
        self.assertEqual(self.read('build/log').count('logic=proved functions=1\n'), 3)
        self.assertEqual(self.left(), ['crates.made', 'desk', 'lock', 'log'])
        self.assertEqual(self.run_desk(*REPLAY), (3, PRINTED, ''))
        self.assertEqual(self.calls(), BUILD)

    def test_before_a_first_build_it_says_what_comes(self) -> None:
        said = self.run_desk(*REPLAY)[2].splitlines()
        self.assertIn(
            '3 crates are proved and built first, which took 12 min 34 s on four cores', said[0]
        )
        self.assertIn('./desk --unproved replay --db memory', said[1])
        self.assertTrue(said[2].startswith('desk: agv_first is proved, 1 of 3'), said[2])
        self.write('crates.txt', CRATES + 'agv_app: agv_middle agv_first\n')
        said = self.run_desk(*REPLAY)[2].splitlines()
        self.assertIn('older than its sources', said[0])
        self.assertTrue(said[1].startswith('desk: agv_first is proved, 1 of 3'), said[1])

    def test_the_gate_says_how_long_a_first_build_takes(self) -> None:
        with open(os.path.join(ROOT, 'docs', 'GATE.md')) as file:
            self.assertRegex(
                file.read(), r'(?m)^\| `\./desk` from nothing[^|]*\| \d+ min( \d+ s)? \|'
            )

    def test_what_an_earlier_run_has_proved_counts(self) -> None:
        self.note('kept')
        status, out, said = self.run_desk(*REPLAY)
        self.assertEqual((status, out), (3, PRINTED))
        self.assertIn('desk: agv_app is proved, 3 of 3 crates', said)

    def test_what_rt_notes_is_handed_on(self) -> None:
        self.note(
            'says',
            'rt: note: nothing is kept\nrt: agv_first: another run is proving the same; '
            'waiting\nrt: another word\n',
        )
        said = self.run_desk(*REPLAY)[2]
        self.assertIn(
            '\ndesk: note: nothing is kept\ndesk: agv_first: another run is proving the same; '
            'waiting\ndesk: agv_first is proved, ',
            said,
        )

    def test_a_terminal_shows_how_far_it_is(self) -> None:
        """The proof of each crate ends once the terminal has shown it."""
        self.note('slow')
        ours, theirs = os.openpty()
        self.addCleanup(os.close, ours)
        process = self.start(*REPLAY, stderr=theirs)
        os.close(theirs)
        said = ''
        with contextlib.suppress(OSError):  # the other end is closed
            while more := os.read(ours, 65536).decode():
                said += more
                for number, crate in enumerate(('agv_first', 'agv_middle', 'agv_app')):
                    if f'\r\x1b[Kdesk: {crate}; {number} of 3 crates proved, ' in said:
                        self.note('seen-' + crate)
        self.assertEqual(
            (process.communicate(timeout=600)[0], process.returncode), (PRINTED, 3), said
        )
        self.assertRegex(said, r'crates proved, \d+ min \d+ s\r\x1b')
        self.assertRegex(said, r'\r\x1b\[Kdesk: proved and built in \d+ min \d+ s\r\n$')

    def test_it_builds_anew_where_a_source_is_newer(self) -> None:
        self.run_desk(*REPLAY)
        later = time.time() + 1000
        watched = [
            'crates/agv_app/src/lib.rt',
            'crates/agv_first/specs/Lib.antt',
            'crates/agv_middle/proofs/Lib.antt',
        ]
        others = [
            'crates.txt',
            'crates/agv_first/must-fail/one.edit',
            'crates/agv_middle_tests/src/lib.rt',
            'crates/agv_first/out/old',
            'desk',
        ]
        for path in others:
            os.utime(os.path.join(self.top, path), (later, later))
        self.assertEqual(self.run_desk(*REPLAY), (3, PRINTED, ''))
        self.assertEqual(self.calls(), BUILD)
        for number, path in enumerate(watched, 2):
            path = os.path.join(self.top, path)
            os.utime(path, (later, later))
            self.assertEqual(self.run_desk(*REPLAY)[0], 3)
            self.assertEqual(self.calls(), BUILD * number, path)
            os.utime(path, (0, 0))

    def test_it_builds_anew_where_a_line_of_its_crates_is_another(self) -> None:
        self.run_desk(*REPLAY)
        self.write('crates.txt', CRATES + 'agv_more: agv_app\n')
        self.assertEqual(self.run_desk(*REPLAY), (3, PRINTED, ''))
        self.assertEqual(self.calls(), BUILD)
        self.write(
            'crates.txt', CRATES.replace('agv_middle: agv_first', 'agv_middle: agv_first kit_crate')
        )
        self.assertEqual(self.run_desk(*REPLAY)[0], 3)
        self.assertEqual(self.calls(), BUILD * 2)

    def test_a_failed_build_is_told_and_nothing_is_run(self) -> None:
        """It ends at once; what was not proved is the end of what is said, and of the log."""
        fails = self.note('fails', 'agv_middle')
        begun = time.monotonic()
        status, out, said = self.run_desk(*REPLAY)
        self.assertEqual((status, out), (1, ''))
        self.assertLess(time.monotonic() - begun, 300)
        self.assertRegex(said, r'\ndesk: agv_middle is not proved, after \d+ min \d+ s; ')
        self.assertIn(os.path.join(self.top, 'build', 'log') + ' ended with:', said)
        ending = (
            'rt: agv_first proved\n== agv_middle\nfn agv_middle::one: not'
            ' proved\nlogic=not-proved\nrt: agv_middle NOT PROVED\n'
        )
        self.assertTrue(said.endswith(ending), said)
        self.assertTrue(self.read('build/log').endswith(ending))
        self.assertEqual(self.left(), ['lock', 'log'])
        self.want_no_rt()
        os.remove(fails)
        self.assertEqual(self.run_desk(*REPLAY)[:2], (3, PRINTED))

    def test_a_program_that_writes_something_else_is_not_run(self) -> None:
        """`rt` runs what it has built, on the input that agv_app has, before it ends with 0."""
        self.note('differs')
        status, out, said = self.run_desk(*REPLAY)
        self.assertEqual((status, out), (1, ''))
        self.assertRegex(said, r'\ndesk: the build failed after \d+ min \d+ s; ')
        self.assertTrue(
            said.endswith('agv_app: it wrote something else\n2 passed, 1 failed\n'), said
        )

    def test_a_program_whose_sources_no_longer_prove_is_not_run(self) -> None:
        self.run_desk(*REPLAY)
        self.note('fails', 'agv_app')
        later = time.time() + 1000
        os.utime(os.path.join(self.top, 'crates/agv_first/src/lib.rt'), (later, later))
        self.assertEqual(self.run_desk(*REPLAY)[:2], (1, ''))

    def test_what_a_killed_build_has_left_is_removed(self) -> None:
        for left in ('workspace-1', 'workspaces/agv_first'):
            self.write(f'build/{left}/crates/agv_middle/src/lib.rt', 'text')
        self.assertEqual(self.run_desk(*REPLAY)[0], 3)
        self.assertEqual(self.left(), ['crates.made', 'desk', 'lock', 'log'])

    def test_a_signal_ends_the_build(self) -> None:
        for number in (signal.SIGTERM, signal.SIGINT, signal.SIGHUP):
            with self.subTest(signal=number):
                slow = self.note('slow')
                process = self.start(*REPLAY)
                self.wait_for(os.path.join(self.notes, 'process'))
                process.send_signal(number)
                out, _ = process.communicate(timeout=300)
                self.assertEqual((process.returncode, out), (-number, ''))
                self.assertEqual(self.left(), ['lock', 'log'])
                self.want_no_rt()
                os.remove(os.path.join(self.notes, 'process'))
                os.remove(slow)
        self.assertEqual(self.run_desk(*REPLAY)[:2], (3, PRINTED))

    def test_a_command_that_a_build_needs_is_missing(self) -> None:
        for name in ('rt', 'python3'):
            os.remove(os.path.join(self.bin, name))
            status, out, said = self.run_desk(*REPLAY)
            self.assertEqual((status, out, said.count('\n')), (1, '', 1))
            self.assertIn(name, said)

    @unittest.skipUnless(shutil.which('flock'), 'flock is not here')
    def test_two_at_once_build_once(self) -> None:
        self.note('slow')
        both = [self.start('replay', '--db', name, '--at', '5') for name in ('a', 'b')]
        self.wait_for(os.path.join(self.top, 'build', 'log'))
        for crate in ('agv_first', 'agv_middle', 'agv_app'):
            self.note('seen-' + crate)
        told = [process.communicate(timeout=600) for process in both]
        self.assertEqual([process.returncode for process in both], [3, 3])
        self.assertEqual(
            [out for out, _ in told], [f'replay|--db|{name}|--at|5|' for name in ('a', 'b')]
        )
        self.assertEqual(
            sum('desk: waiting for another ./desk here' in said for _, said in told), 1
        )
        self.assertEqual(self.calls(), BUILD)


class Unproved(Tree):
    def test_it_is_built_without_proofs_and_runs(self) -> None:
        status, out, said = self.run_desk(
            '--unproved', 'serve', '--db', 'no/f', '--port', '0', '--connections', '1'
        )
        self.assertEqual((status, out), (3, 'serve|--db|no/f|--port|0|--connections|1|'))
        self.assertTrue(said.endswith(NOT_PROVED), said)
        self.assertIn('desk: built without proofs in ', said)
        self.assertEqual(self.calls(), ['agv_app try -- replay --db memory --at 0'])
        self.assertEqual(os.listdir(os.path.join(self.top, 'build')), ['unproved'])
        self.assertEqual(
            sorted(os.listdir(os.path.join(self.top, 'build', 'unproved'))),
            ['crates.made', 'desk', 'lock', 'log'],
        )
        self.assertEqual(self.run_desk('--unproved', *REPLAY), (3, PRINTED, NOT_PROVED))
        self.assertEqual(len(self.calls()), 1)

    def test_a_newer_source_builds_it_anew(self) -> None:
        self.run_desk('--unproved', *REPLAY)
        later = time.time() + 1000
        os.utime(os.path.join(self.top, 'crates/agv_first/src/lib.rt'), (later, later))
        self.assertEqual(self.run_desk('--unproved', *REPLAY)[:2], (3, PRINTED))
        self.assertEqual(len(self.calls()), 2)

    def test_it_is_never_taken_for_the_proved_one(self) -> None:
        self.run_desk('--unproved', *REPLAY)
        self.note('fails', 'agv_first')
        self.assertEqual(self.run_desk(*REPLAY)[:2], (1, ''))

    def test_where_a_kit_leaves_no_module(self) -> None:
        """Then `rt try` runs a replay, and nothing else is run."""
        self.note('no-module', 'run=ended status=0 proved=no\n')
        status, out, said = self.run_desk('--unproved', 'replay', '--db', 'memory', '--at', '5')
        self.assertEqual((status, out), (0, 'run=ended status=0 proved=no\n'))
        self.assertIn('leaves no program without proofs', said)
        self.assertEqual(self.calls()[-1], 'agv_app try -- replay --db memory --at 5')
        status, out, said = self.run_desk('--unproved', 'serve', '--db', 'f', '--port', '0')
        self.assertEqual((status, out), (1, ''))
        self.assertIn('only `replay`', said)

    def test_sources_that_are_wrong(self) -> None:
        """`rt try` ends with 1, or with another status where it fails itself. Its last line says in
        some kits that nothing is proved."""
        self.note('no-module', 'src/main.rt:1:1: error: wrong\nrun=none proved=no\n')
        for tried in ('1', '2', '143'):
            self.note('status', tried)
            status, out, said = self.run_desk('--unproved', *REPLAY)
            self.assertEqual((status, out), (1, ''))
            self.assertTrue(
                said.endswith('ended with:\nsrc/main.rt:1:1: error: wrong\nrun=none proved=no\n'),
                said,
            )

    def test_a_compiler_that_fails(self) -> None:
        """What it says is in the log."""
        self.write(
            os.path.join(self.kit, 'toolchain/bin/clang'),
            '#!/bin/sh\necho no room >&2\nexit 7\n',
            0o755,
        )
        status, out, said = self.run_desk('--unproved', 'serve', '--db', 'f', '--port', '0')
        self.assertEqual((status, out), (1, ''))
        log = os.path.join(self.top, 'build', 'unproved', 'log')
        self.assertIn(f'clang ended with status 7; what it said is in {log}\n', said)
        self.assertEqual(self.read('build/unproved/log'), 'no room\n')

    def test_a_signal_ends_the_build(self) -> None:
        self.write(
            os.path.join(self.kit, 'toolchain/bin/clang'),
            '#!/bin/sh\ntouch module-1.o.tmp "$NOTES/compiles"\nexec sleep 600\n',
        )
        process = self.start('--unproved', *REPLAY)
        self.wait_for(os.path.join(self.notes, 'compiles'))
        process.terminate()
        process.communicate(timeout=300)
        self.assertEqual(process.returncode, -signal.SIGTERM)
        self.assertEqual(
            sorted(os.listdir(os.path.join(self.top, 'build', 'unproved'))),
            ['lock', 'log'],
        )


if __name__ == '__main__':
    unittest.main()
