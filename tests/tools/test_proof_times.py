"""Shows what `dev/proof-times` prints of files as a check leaves them."""
import os
import shutil
import subprocess
import tempfile
import unittest

from tests.support.programs import ROOT

# The files that a check has written, each with the second of it.
WRITTEN = (
    (100.0, 'Rattle-agv_one-specs.Trips.oantt'),
    (100.5, 'Rattle-agv_one-proofs.lists.Orders.oantt'),
    (103.0, 'Rattle-agv_one-proofs.trip.Trip.plan.Lts.oantt'),
    (104.0, 'Rattle-agv_one-proofs.trip.Trip.plan.Proof.oantt'),
    (104.5, 'Rattle-agv_one-proofs.trip.Trip.plan.oantt'),
    (106.5, 'Rattle-agv_one-proofs.acts.is_done.Kinds-6-1.oantt'),
    (107.0, 'Rattle-agv_one-specs.contracts.acts.is_done.oantt'),
    (109.0, 'Rattle-agv_one_more-proofs.acts.other.Lts.oantt'),
)
WANTED = """seconds   kind of part, of 6
     2.5  Lts
     2.0  Kinds
     1.0  Proof
     0.5  lemmas
     0.5  body
     0.5  specs

seconds   function
     4.0  trip.Trip.plan
     2.0  acts.is_done
"""


class ProofTimes(unittest.TestCase):
    def setUp(self) -> None:
        self.top = tempfile.mkdtemp()
        self.addCleanup(shutil.rmtree, self.top)
        os.mkdir(os.path.join(self.top, 'dev'))
        self.program = shutil.copy(
            os.path.join(ROOT, 'dev', 'proof-times'), os.path.join(self.top, 'dev')
        )

    def run_it(self, *words: str) -> subprocess.CompletedProcess[str]:
        return subprocess.run([self.program, *words], capture_output=True, text=True)

    def write(self) -> None:
        kept = os.path.join(self.top, 'crates', 'agv_one', 'out', 'incremental', 'checked')
        for folder in (kept, os.path.join(kept, 'records')):
            os.makedirs(folder)
            for seconds, name in WRITTEN:
                path = os.path.join(folder, name)
                with open(path, 'w'):
                    pass
                # (what stands in records/ is no part of its own)
                os.utime(path, (seconds, seconds if folder == kept else 2 * seconds))

    def test_what_took_its_time(self) -> None:
        """By kind, and by function; those of other crates are left out."""
        self.write()
        ran = self.run_it('agv_one')
        self.assertEqual((ran.returncode, ran.stdout, ran.stderr), (0, WANTED, ''))

    def test_the_largest(self) -> None:
        self.write()
        self.assertTrue(
            self.run_it('agv_one', '--most', '1').stdout.endswith(
                'function\n     4.0  trip.Trip.plan\n'
            )
        )

    def test_nothing_kept(self) -> None:
        """It says what to do first."""
        ran = self.run_it('agv_two')
        self.assertEqual((ran.returncode, ran.stdout), (1, ''))
        self.assertIn('no check of agv_two has left anything', ran.stderr)
        self.assertIn('rm -rf out && rt check --jobs 1', ran.stderr)


if __name__ == '__main__':
    unittest.main()
