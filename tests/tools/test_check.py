"""Shows what the script `check` runs, over a stand-in for `rt`."""
from __future__ import annotations

import os
import shutil
import subprocess
import unittest

from tests.support.desk_tree import Tree
from tests.support.programs import ROOT


class Check(Tree):
    """The script `check`, over the stand-in, and tests that pass."""

    def setUp(self) -> None:
        super().setUp()
        for name in ('check', '.ci/run'):
            os.makedirs(os.path.dirname(os.path.join(self.top, name)), exist_ok=True)
            shutil.copy(os.path.join(ROOT, name), os.path.join(self.top, name))
        for tool in ('nproc', 'tee', 'tail', 'mktemp'):
            os.symlink(str(shutil.which(tool)), os.path.join(self.bin, tool))
        self.write(
            os.path.join(self.kit, 'bin', 'rt'),
            '#!/bin/sh\necho "$* $RT_JOBS"; echo "2 passed, 0 failed"\n',
            0o755,
        )
        self.write('tests/run.py', 'print("3 passed, 0 failed")\n')

    def check(self, name: str, **more: str) -> list[str]:
        env = {'PATH': self.bin, 'NOTES': self.notes, **more}
        done = subprocess.run(
            [os.path.join(self.top, name)], env=env, capture_output=True, text=True
        )
        self.assertEqual((done.returncode, done.stderr), (0, ''))
        return done.stdout.splitlines()

    def test_there_are_as_many_jobs_as_the_machine_has_room_for(self) -> None:
        memory = os.sysconf('SC_PHYS_PAGES') * os.sysconf('SC_PAGE_SIZE')
        jobs = max(1, min(len(os.sched_getaffinity(0)), int(memory / 5e9)))
        for name in ('check', '.ci/run'):
            told = [
                f'ci {jobs}',
                '2 passed, 0 failed',
                'release: there is no release to compare with',
                '3 passed, 0 failed',
                '5 passed, 0 failed',
            ]
            self.assertEqual(self.check(name), told)
            self.assertEqual(self.check(name, RT_JOBS='7')[0], 'ci 7')

    @unittest.skipUnless(shutil.which('flock'), 'flock is not here')
    def test_it_removes_what_a_killed_build_has_left(self) -> None:
        for left in ('workspace-1', 'workspaces'):
            self.write(f'build/{left}/crates/agv_first/src/lib.rt', 'text')
        self.check('check')
        self.assertEqual(os.listdir(os.path.join(self.top, 'build')), ['lock'])


if __name__ == '__main__':
    unittest.main()
