"""Shows that the page names the jobs of a vehicle that does not go on, with a button that ends its
order, what the dispatcher says of jobs that wait, and how urgent they are."""

from __future__ import annotations

import os
import tempfile
import time
import unittest

from nulvrader.common.instructions import Urgency
from nulvrader.common.instructions_file import read_file
from nulvrader.common.reasons import Reasons, write_file
from tests.support.board_page import Page
from tests.support.board_run import ONE, until

# Each text that those hear who do not see the page.
HEARD = """
    const spoken = document.querySelector('.spoken');
    window.said = [];
    new MutationObserver(() => window.said.push(spoken.textContent)).observe(spoken, {
      childList: true, characterData: true, subtree: true,
    });
"""


class Trouble(Page):
    def test_the_jobs_of_a_vehicle_that_is_not_ready(self) -> None:
        """The alarm names them, and its button opens the cancel of that order. Of a vehicle without
        jobs there is no such button."""
        self.plant.state(ONE, 'N1', operatingMode='MANUAL')
        self.sees('#alarms', 'KIT/0001 is not ready')
        self.assertEqual(self.browser.text('#alarms .help'), '')
        self.plant.state(ONE, 'N1')
        self.misses('#alarms', 'KIT/0001 is not ready')
        self.desk.add_job('J1', 'L1', 'B')
        self.desk.start_order('O1', ONE, job='J1', edges=0)
        self.plant.state(ONE, 'N1', 'O1', operatingMode='MANUAL')
        self.sees('#alarms', 'KIT/0001 is not ready', 'In its order: J1.', 'Cancel')
        self.browser.click('#alarms .help')
        self.sees('#command', 'Cancel the order', 'KIT/0001')

    def test_what_is_said_to_those_who_hear_the_page(self) -> None:
        """What is new is said, and taken away while it still stands, so that the same words are
        said once more where it comes again."""
        self.browser.run(HEARD)
        words = 'KIT/0001 is not ready'

        def said() -> list[str]:
            found: list[str] = self.browser.run('return window.said')
            return found

        for count in (1, 2):
            self.plant.state(ONE, 'N1', operatingMode='MANUAL')
            until(lambda: sum(words in one for one in said()) == count, 'it is said')
            until(lambda: said()[-1] == '', 'it is taken away')
            self.sees('#alarms', words)
            self.plant.state(ONE, 'N1')
            self.misses('#alarms', words)


class Told(Page):
    def setUp(self) -> None:
        folder = self.enterContext(tempfile.TemporaryDirectory())
        self.waits, self.told = (os.path.join(folder, name) for name in ('waits', 'told'))
        self.words = (*Page.words, '--waits', self.waits, '--instructions', self.told)
        super().setUp()

    def test_a_job_that_waits(self) -> None:
        """Its card has what the dispatcher says, and how urgent it is, which a command changes."""
        self.desk.add_job('J1', 'L1', 'B')
        self.browser.click('#tab-jobs')
        self.sees('.job-card', 'J1')
        write_file(self.waits, Reasons(time.time(), {'job J1': 'no vehicle is free'}))
        self.sees('.job-card .why', 'Dispatcher: no vehicle is free')
        self.assertTrue(self.board.do('urgency', job='J1', priority='2')['done'])
        self.assertEqual(read_file(self.told).jobs, {'J1': Urgency(None, 2)})
        self.sees('.job-card .urgency', 'priority 2')
        self.browser.click('.job-card [data-command=urgency]')
        self.sees('#command', 'How urgent a job is')
        until(lambda: self.browser.value('#field-priority', 'value') == '2', 'it is filled in')


if __name__ == '__main__':
    unittest.main()
