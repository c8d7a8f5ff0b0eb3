"""Shows that `tools/ask` asks nothing where its words or a body are wrong, and names what was
meant."""
from __future__ import annotations

import json
import unittest
from unittest import mock
from typing import Any

from nulvrader.ask import calls
from nulvrader.desk import bodies, client
from tests.support.asking import PLANT, ask
from tests.support.programs import ran, within
from tests.support.states import told

# Lines with a wrong word, and what is told of it.
WRONG_WORDS = (
    (
        'regster-load L1',
        'there is no command regster-load; register-load was probably meant',
    ),
    ('vehicels', 'there is no command vehicels; vehicles was probably meant'),
    (
        'register-load L1 --staton A',
        'there is no option --staton here; --station was probably meant',
    ),
    ('stop-job J1 --ref R1', 'there is no option --ref here; other commands have it'),
    ('register-load', 'the following arguments are required: LOAD'),
    (
        'register-load L#1',
        "'L#1' is no name for a load: a name is 1 to 32 of A-Z a-z 0-9 _ . : -",
    ),
    ('register-vehicle KIT-0001 --node N1', 'write MANUFACTURER/SERIAL, as KIT/0001'),
    (
        'register-vehicle KIT/0001 --node N1 --capacity two',
        "'two' is no whole number from 0 to 4294967295",
    ),
    ('advance KIT/0001 --edges -1', "'-1' is no whole number from 0 to 4294967295"),
    (
        'order O1 --vehicle KIT/0001 --edges 1',
        'give the order either --job, or --pick and --drop',
    ),
    (
        'order O1 --vehicle KIT/0001 --job J1 --pick J1 --edges 1',
        'give the order either --job, or --pick',
    ),
    ('loads --station A --checking', 'give one of --station, --vehicle and --checking'),
    ('drive KIT/0001', 'the following arguments are required: --to'),
    ('drive --to N1', 'the following arguments are required: VEHICLE'),
    ('drive KIT/0001 --to N#1', "'N#1' is no name for a node"),
    ('drive KIT/0001 --to N1 --order D/1', "'D/1' is no name for a"),
    ('drive KIT/0001 --to N1 --edges -1', "'-1' is no whole number from 0 to 4294967295"),
    ('drive KIT/0001 --to N1 --job J1', 'there is no option --job here'),
    ('job', 'the following arguments are required: JOB'),
    ('job J/1', "'J/1' is no name for a job"),
    (
        'call POST /vehicle {}',
        'POST /vehicle: there is no such call; POST /vehicles was probably meant',
    ),
    ('call GET /loads', 'GET /loads: the method of this path is POST'),
    ('call POST /loads {"load"', 'the body is no JSON'),
    ('refusal Heldd', "'Heldd' is neither the name nor the number of a refusal"),
    ('--timeout 0 vehicles', '0 is no number of seconds'),
    ('--password-file /nowhere/p vehicles', "No such file or directory: '/nowhere/p'"),
)


class Words(unittest.TestCase):
    """Words that are wrong: nothing is asked, and the line names what was meant."""

    def refused(self, *words: str) -> Any:
        ends, out, said = within(ask, '--desk', '127.0.0.1:1', *words)
        self.assertEqual((ends, out), (2, ''))
        return said

    def test_words(self) -> None:
        for line, wanted in WRONG_WORDS:
            with self.subTest(line):
                self.assertIn(wanted, self.refused(*line.split()))
        said = within(ask, '--desk', 'desk:nowhere', 'jobs')[2]
        self.assertIn("'desk:nowhere' is not the address of a desk: write HOST:PORT", said)

    def test_no_desk(self) -> None:
        ends, out, said = ran('ask', '--desk', '127.0.0.1:1', 'place', 'KIT/0001', '--node', 'N1')
        self.assertEqual((ends, out), (3, ''))
        self.assertEqual(
            said,
            'ask: 127.0.0.1:1: no program listens there: is the desk started, and on this port?\n',
        )

    def test_an_answer_that_is_lost(self) -> None:
        """What may have been carried out is to be asked again, with the reference that was made, or
        the name of the drive."""
        asked: list[Any] = []

        def lost(_: Any, method: str, target: str, body: Any = None) -> Any:
            asked.append(json.loads(body))
            raise client.NoAnswer('cut', True)

        for line, member, option in (
            ('leave L1', 'ref', '--ref'),
            ('drive KIT/0001 --to N7', 'order', '--order'),
            ('drive KIT/0001 --to N7 --order G1', 'order', '--order'),
        ):
            with mock.patch.object(client.Desk, 'ask', lost):
                ends, out, said = within(ask, *line.split())
            self.assertEqual((ends, out), (3, ''))
            name = asked[-1][member]
            self.assertIn(f'ask the same again with {option} {name};', said)
            self.assertEqual(name == 'G1', line.endswith('G1'))
        with mock.patch.object(client.Desk, 'ask', lost):
            said = within(ask, *'order O1 --vehicle KIT/0001 --job J1 --edges 1'.split())[2]
        self.assertIn('ask the same again; ', said)

    def test_a_refusal_is_explained(self) -> None:
        for word in ('held', '33'):
            self.assertTrue(
                within(ask, 'refusal', word)[1].startswith('Held (33): The vehicle `by` holds')
            )

    def test_each_call_has_a_command(self) -> None:
        """The commands, by their examples, send each call of docs/openapi.json, but for `call`,
        which sends any."""
        files = {
            'layout.csv': PLANT.encode(),
            'count.csv': b'station,load\nA,\n',
            'state.json': json.dumps(told(1)).encode(),
        }
        row: dict[str, Any] = {
            'ready': True,
            'paused': False,
            'astray': False,
            'pending': None,
            'confirmed': None,
            'headerId': None,
        }  # of `advance`
        row.update(
            manufacturer='KIT', serialNumber='0001', node='N1', capacity=1, order='O1', sent=0
        )
        known, sent = bodies.description(), set()

        def answer(_: str, method: Any, target: str, body: bytes | None = None) -> Any:
            operation = known.operation(method, target)
            assert operation
            sent.add((operation.method, operation.path))
            if (method, target) == ('GET', '/vehicles/KIT/0001'):
                return client.Answer(200, json.dumps(row).encode())
            return client.Answer(404, b'{"name":"NoVehicle","refusal":20}')

        with mock.patch.object(client.Desk, 'ask', answer), mock.patch.object(
            calls, 'data_of', files.get
        ):
            for name, command in ask.COMMANDS.items():
                if name != 'call':
                    within(ask, name, *command.example.split())
        self.assertEqual(sent, {(one.method, one.path) for one in known.operations})

    def test_the_help(self) -> None:
        """Each command has an example, which its words take, and says what it costs."""
        _, out, _ = within(ask, '--help')
        for name, command in ask.COMMANDS.items():
            self.assertIn(f'\n  {name!s:<18} {command.does}\n', out)
            line = command.example.replace("'", '').split()
            self.assertEqual(ask.command_line().parse_args([name, *line]).command, name)
        said = within(ask, 'advance', '--help')[1]
        self.assertIn(
            'tools/ask advance KIT/0001 --edges 2\n\nRequests: 2, and 3 with --all.', said
        )


class Bodies(unittest.TestCase):
    """The check of bodies against docs/openapi.json: its examples that a desk takes have no fault,
    and those that it answers with BadBody, Fraction, Position or Version have one."""

    def test_the_examples(self) -> None:
        with open(bodies.DOCUMENT) as file:
            document = json.load(file)
        known, seen = bodies.description(), {True: 0, False: 0}
        for path, item in document['paths'].items():
            for method, operation in item.items():
                content = (
                    operation.get('requestBody', {}).get('content', {})
                    if isinstance(operation, dict)
                    else {}
                )
                for name, example in (
                    content.get('application/json', {}).get('examples', {}).items()
                ):
                    at = operation['x-examples'][name]['path']
                    said = known.operation(method.upper(), at)
                    assert said
                    faults = known.faults(said, json.dumps(example['value']).encode())
                    is_unfit = name.split()[0] in ('BadBody', 'Fraction', 'Position', 'Version')
                    self.assertEqual(bool(faults), is_unfit, (path, name, faults))
                    seen[is_unfit] += 1
        self.assertGreater(min(seen.values()), 4)

    def test_members_of_vda_5050(self) -> None:
        """A state may have members that the desk does not look at; one that is nearly `paused` is
        told."""
        known = bodies.description()
        operation = known.operation('POST', '/uagv/v2/KIT/0001/state')
        assert operation
        more: dict[str, Any] = {
            'zoneSetId': 'Z',
            'newBaseRequest': True,
            'loads': [],
            'information': [],
            'distanceSinceLastNode': 3,
        }
        nodes = [{'sequenceId': 2, 'nodeId': 'N2', 'nodeDescription': 'a node', 'released': True}]
        state = {**told(1), **more, 'nodeStates': nodes}
        self.assertEqual(known.faults(operation, json.dumps(state).encode()), [])
        faults = known.faults(operation, json.dumps({**state, 'pausd': True}).encode())
        self.assertEqual(faults, ['there is no member pausd; paused was probably meant'])

    def test_no_description(self) -> None:
        with self.assertRaises(bodies.NoDescription):
            bodies.description('/nowhere/openapi.json')


if __name__ == '__main__':
    unittest.main()
