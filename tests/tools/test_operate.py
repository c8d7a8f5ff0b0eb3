"""Shows that docs/OPERATE.md names the faults, the refusals and the files as they are, and
docs/HTTP.md the texts of the help."""
from __future__ import annotations

import os
import re
import shlex
import unittest

from tests.support.desks import run
from tests.support.operating import AGAIN, PAGE, Program, section, text_of, texts_of_the_help
from tests.support.programs import ROOT, matched


class Page(unittest.TestCase):
    def test_the_faults(self) -> None:
        """The faults are those of the program, each once."""
        told = re.findall(
            r'^- \*\*`fault: (\w+)`\*\*', section('docs/OPERATE.md', 'Each fault line'), re.M
        )
        source = text_of('crates', 'agv_app_run', 'src', 'outcome.rt') + text_of(
            'crates', 'agv_app_line', 'src', 'line_fault.rt'
        )
        self.assertEqual(sorted(told), sorted(set(re.findall(r'"fault: (\w+)\\n"', source))))

    def test_the_refusals(self) -> None:
        """Each has its number; and each name in the table of calls that are asked again is one of a
        refusal."""
        page = section('docs/HTTP.md', 'All refusals')
        numbers = {
            name: int(number) for number, name in re.findall(r'^\| (\d+) \| (\w+) \|', page, re.M)
        }
        told = re.findall(r'\*\*(\w+)\*\*\s\((\d+)\)', PAGE)
        self.assertGreater(len(told), 40)
        self.assertEqual(
            [(name, int(number)) for name, number in told],
            [(name, numbers[name]) for name, _ in told],
        )
        for answer, _ in AGAIN.values():
            self.assertTrue(answer in numbers or answer.startswith('`'), answer)

    def test_the_calls_that_are_asked_again(self) -> None:
        """They are all that change something."""
        page = section('docs/HTTP.md', 'The table of calls')
        calls = [
            re.sub(r'\{\w+\}', '..', call) for call in re.findall(r'^- `(\w+ /\S+)`\.', page, re.M)
        ]
        calls = [call.replace('../../', '../') for call in calls if not call.startswith('GET ')]
        self.assertEqual(sorted(AGAIN), sorted(calls))

    def test_the_files(self) -> None:
        """What the page and README name of this tree is there."""
        for page in (PAGE, text_of('README.md')):
            names = set(re.findall(r'\b(?:examples|docs|tests|bench|tools)/[\w./-]*\w', page))
            self.assertGreater(len(names), 8)
            self.assertEqual(
                [name for name in names if not os.path.exists(os.path.join(ROOT, name))], []
            )

    def test_the_texts_of_the_help(self) -> None:
        """docs/HTTP.md has the text of the program and of each subcommand, in their order, as the
        source has them."""
        source = text_of('crates', 'agv_app_line', 'src', 'line.rt')
        form = (
            r'let about =\s*"([^"]*)";\s*let example'
            r' =\s*"[^"]*";[^"]*\b(?:named|file)_command\(alloc, "(\w+)", about, example\)'
        )
        found = re.findall(form, source)
        texts = [(name, about) for about, name in found]
        self.assertEqual(
            [name for name, _ in texts], ['desk', 'replay', 'serve', 'report', 'migrate']
        )
        self.assertEqual(texts_of_the_help(), texts)


class CommandLine(Program):
    def test_the_help(self) -> None:
        """Its first line is the text of docs/HTTP.md."""
        for name, text in texts_of_the_help():
            status, _, said = run(*([] if name == 'desk' else [name]), '--help')
            self.assertEqual((status, said.decode().split('\n')[0]), (2, text))

    def test_the_unit(self) -> None:
        """Its line is taken, over a file here and with no connection."""
        unit = text_of('examples', 'systemd', 'nulvrader-desk.service')
        words = shlex.split(matched('^ExecStart=(.*)$', unit, re.M)[1])
        self.assertEqual(
            (words[0], words[3], words[5]),
            ('/usr/lib/nulvrader/desk', '${NULVRADER_DB}', '${NULVRADER_PORT}'),
        )
        words[5] = '8080'
        self.assertIn(
            f'\n./desk serve --db warehouse.db {" ".join(words[4:])}\n', text_of('README.md')
        )
        words[3], words[5], words[7] = self.db, '0', '0'
        status, out, said = run(*words[1:])
        self.assertEqual((status, said), (0, b''))
        self.assertRegex(out, rb'^listening on 127\.0\.0\.1:\d+\n$')


if __name__ == '__main__':
    unittest.main()
