"""Shows that the metrics and the health of the board say what is so, and that the files of
`examples/prometheus` and `examples/grafana` use metrics that there are."""
from __future__ import annotations

import dataclasses
import json
import os
import re
import shutil
import signal
import subprocess
import tempfile
import unittest
from typing import Any

from tests.support import board_document
from tests.support.board_run import ONE, Watching, until
from tests.support.programs import ROOT

from nulvrader.board.api.health import BACK, LOW, SLOW, STALE, Facts, reasons_of
from nulvrader.board.api.meters import Histogram
from nulvrader.board.api.watch import ALARMS
from nulvrader.board.messages import table
from nulvrader.board.uses import STATES, state_of

PROMETHEUS = os.path.join(ROOT, 'examples', 'prometheus')
DASHBOARD = os.path.join(ROOT, 'examples', 'grafana', 'nulvrader.json')
NAME = re.compile(r'\bnulvrader_\w+')
SAMPLE = re.compile(r'(nulvrader_\w+)(?:\{([^}]*)\})? (\S+)')
WITHOUT_PROMTOOL = shutil.which('promtool') is None
WHY = 'no promtool here'


def promtool(*words: str, text: str = '') -> str:
    """What promtool says, which finds no fault."""
    line = ['promtool', *words]
    done = subprocess.run(line, cwd=PROMETHEUS, input=text, capture_output=True, text=True)
    if done.returncode:
        raise AssertionError(done.stdout + done.stderr)
    return done.stdout + done.stderr


class Metrics(Watching):
    words = ('--silent', '3000')

    def metrics(self) -> dict[str, float]:
        """The values, each by its name and labels."""
        status, head, body = self.board.ask('GET', '/metrics')
        self.assertEqual((status, head['Content-Type'].split(';')[0]), (200, 'text/plain'))
        self.text = body.decode()
        lines = [line for line in self.text.splitlines() if not line.startswith('#')]
        found = [SAMPLE.fullmatch(line) for line in lines]
        self.assertNotIn(None, found)
        told = {
            f'{one[1]}{{{one[2]}}}' if one[2] else one[1]: float(one[3]) for one in found if one
        }
        self.assertEqual(len(told), len(lines))
        return told

    def until(self, **wanted: float) -> dict[str, float]:
        """Waits until the metrics have these values, each without its front; `__` divides a name
        from the text of its label."""
        last: dict[str, float] = {}

        def has() -> bool:
            nonlocal last
            last = self.metrics()
            return all(self.value(last, name) == value for name, value in wanted.items())

        try:
            until(has, str(wanted))
        except AssertionError as fault:
            got = {name: self.value(last, name) for name in wanted}
            raise AssertionError(f'{fault}, and it is {got}') from None
        return last

    def value(self, told: dict[str, float], name: str) -> float | None:
        """A value by its name, and behind `__` the text of its first label."""
        name, _, text = name.partition('__')
        of = {
            key: value
            for key, value in told.items()
            if re.fullmatch(rf'nulvrader_{name}(\{{\w+="{text}"\}})?', key)
        }
        self.assertLessEqual(len(of), 1, of)
        return next(iter(of.values()), None)

    def test_a_transport(self) -> None:
        """A job waits, rides and is done, and the vehicle is free, busy and free; another job is
        stopped. Each is counted once."""
        self.until(vehicles__free=1, vehicles__busy=0, loads__station=2, jobs__waiting=0, desk_up=1)
        self.desk.add_job('J1', 'L1', 'B')
        self.desk.add_job('J2', 'L2', 'B')
        self.until(jobs__waiting=2, jobs__riding=0, jobs_ended_total__done=0)
        self.desk.start_order('O1', ONE, job='J1', edges=2)
        self.until(jobs__waiting=1, jobs__riding=1, vehicles__busy=1, vehicles__free=0)
        picked, dropped = ('O1.0', 'FINISHED'), ('O1.1', 'FINISHED')
        self.plant.state(ONE, 'N2', 'O1', 0, 2, (picked,))
        self.until(loads__vehicle=1, loads__station=1)
        self.plant.state(ONE, 'N3', 'O1', 0, 4, (picked, dropped))
        self.desk.stop_job('J2')
        told = self.until(
            jobs__waiting=0,
            jobs__riding=0,
            jobs_ended_total__done=1,
            jobs_ended_total__stopped=1,
            jobs_ended_total__failed=0,
            job_wait_seconds_count=1,
            job_ride_seconds_count=1,
            vehicles__free=1,
            loads__station=2,
            loads__vehicle=0,
        )
        self.assertLess(told['nulvrader_job_ride_seconds_sum'], 600)
        last = self.board.rows('SELECT max(n) FROM events')[0][0]
        self.assertLessEqual(told['nulvrader_event_last_id'], last)
        self.board.stop()
        self.board = self.plant.board(*self.words, port=self.board.port)
        self.until(jobs_ended_total__done=0, vehicles__free=1)

    def test_the_desk(self) -> None:
        """Its answers are counted, and those that don't come; health says so."""
        told = self.metrics()
        answered = self.value(told, 'desk_requests_total__answered')
        self.assertEqual(answered, told['nulvrader_desk_answer_seconds_count'])
        self.assertEqual(self.health(), (200, []))
        self.plant.served.stop(signal.SIGKILL)
        self.wait('desk', '', up=False)
        told = self.until(desk_up=0, healthy=0)
        self.assertGreater(self.value(told, 'desk_requests_total__unanswered') or 0, 0)
        self.assertEqual(self.health(), (503, ['desk']))
        self.plant.start_desk()
        self.until(desk_up=1, healthy=1)
        self.assertEqual(self.health(), (200, []))

    def health(self) -> tuple[int, list[str]]:
        """The status, and the reasons."""
        status, _, body = self.board.ask('GET', '/health')
        told = json.loads(body)
        self.assertEqual(board_document.faults('/health', status, told), [])
        return status, [one['reason'] for one in told['reasons']]

    @unittest.skipIf(WITHOUT_PROMTOOL, WHY)
    def test_promtool_reads_them(self) -> None:
        self.metrics()
        promtool('check', 'metrics', text=self.text)

    def test_names_in_the_examples(self) -> None:
        """Each metric that an alert or the dashboard names is one of the board's, and each of the
        board's is in one of them, but those that stand for themselves."""
        named = set()
        for path in (os.path.join(PROMETHEUS, 'alerts.yml'), DASHBOARD):
            with open(path, encoding='utf-8') as file:
                named |= set(NAME.findall(file.read()))
        self.metrics()
        found = {name.split('{')[0] for name in NAME.findall(self.text)}
        self.assertEqual(named - found, set())
        bases = {re.sub('_(bucket|sum|count)$', '', name) for name in named}
        told = set(re.findall('^# TYPE (\\w+)', self.text, re.M))
        fronts = ('event_last_id', 'event_streams', 'desk_last_answer_timestamp_seconds')
        self.assertEqual(told - bases, {f'nulvrader_{name}' for name in fronts})


class Files(unittest.TestCase):
    """The files for Prometheus and Grafana."""

    def dashboard(self) -> Any:
        with open(DASHBOARD, encoding='utf-8') as file:
            return json.load(file)

    @unittest.skipIf(WITHOUT_PROMTOOL, WHY)
    def test_alerts(self) -> None:
        self.assertIn('rules found', promtool('check', 'rules', 'alerts.yml'))
        self.assertIn('SUCCESS', promtool('test', 'rules', 'alerts_test.yml'))
        promtool('check', 'config', '--syntax-only', 'prometheus.yml')

    def test_each_alert_is_tested(self) -> None:
        """That it comes, and that it stays away where all is well."""
        with open(os.path.join(PROMETHEUS, 'alerts.yml'), encoding='utf-8') as file:
            alerts = set(re.findall(r'alert: (\w+)', file.read()))
        with open(os.path.join(PROMETHEUS, 'alerts_test.yml'), encoding='utf-8') as file:
            text = file.read()
        self.assertEqual(alerts, set(re.findall(r'alertname: (\w+)}', text)))
        self.assertEqual(alerts, set(re.findall(r'alertname: (\w+)\n *exp_alerts', text)))

    def test_the_kinds_of_alarms(self) -> None:
        """All that the board has are counted, also where there is none."""
        rows = [re.fullmatch(r'alarm\.(.+)\.do', name) for name in table()]
        self.assertEqual({row[1] for row in rows if row}, set(ALARMS))

    def test_the_dashboard(self) -> None:
        """Its panels lie beside one another, and each asks for something."""
        taken: set[tuple[int, int]] = set()
        told = self.dashboard()
        ids = [panel['id'] for panel in told['panels']]
        self.assertEqual(len(ids), len(set(ids)))
        for panel in told['panels']:
            at = panel['gridPos']
            self.assertLessEqual(at['x'] + at['w'], 24)
            cells = {
                (x, y)
                for x in range(at['x'], at['x'] + at['w'])
                for y in range(at['y'], at['y'] + at['h'])
            }
            self.assertFalse(cells & taken, panel['title'])
            taken |= cells
            self.assertTrue(all(one['expr'] for one in panel['targets']), panel['title'])

    @unittest.skipIf(WITHOUT_PROMTOOL, WHY)
    def test_what_the_dashboard_asks(self) -> None:
        """Each question is one of Prometheus' language."""
        exprs = [one['expr'] for panel in self.dashboard()['panels'] for one in panel['targets']]
        rules = [
            {'record': f'a:b{number}', 'expr': expr.replace('$__rate_interval', '5m')}
            for number, expr in enumerate(exprs)
        ]
        with tempfile.NamedTemporaryFile('w', suffix='.yml') as file:
            json.dump({'groups': [{'name': 'a', 'rules': rules}]}, file)  # YAML, too
            file.flush()
            self.assertIn(f'{len(exprs)} rules found', promtool('check', 'rules', file.name))


class Health(unittest.TestCase):
    """Each reason, alone."""

    WELL = Facts(
        now=1_000_000,
        desk={'up': True, 'other': False, 'since': 5, 'fault': None},
        asking=None,
        unwritten=None,
        unread=None,
        looked=0.1,
        free=LOW,
        newest=1_000_000,
    )

    def test_reasons(self) -> None:
        self.assertEqual(reasons_of(self.WELL).told(), {'healthy': True, 'reasons': []})
        down = {'up': False, 'other': False, 'since': 7, 'fault': 'no program listens there'}
        changes: tuple[tuple[str, dict[str, Any]], ...] = (
            ('starting', {'desk': None}),
            ('desk', {'desk': down}),
            ('other_desk', {'desk': {**down, 'other': True}}),
            ('desk_slow', {'asking': 1_000_000 - SLOW - 1}),
            ('record_not_written', {'unwritten': 'the disk is full'}),
            ('record_not_read', {'unread': 'the disk fails'}),
            ('record_not_read', {'looked': STALE + 1}),
            ('disk', {'free': LOW - 1}),
            ('clock', {'newest': 1_000_000 + BACK + 1}),
        )
        for name, changed in changes:
            health = reasons_of(dataclasses.replace(self.WELL, **changed))
            self.assertEqual([one.name for one in health.reasons], [name], changed)
            self.assertEqual(board_document.faults('/health', 503, health.told()), [])
        for changed in ({'asking': 1_000_000 - SLOW}, {'newest': 1_000_000 + BACK}):
            self.assertTrue(reasons_of(dataclasses.replace(self.WELL, **changed)).is_well)
        told = reasons_of(dataclasses.replace(self.WELL, desk=down)).told()['reasons'][0]
        self.assertEqual(told['since'], '1970-01-01T00:00:00.007Z')
        self.assertIn('no program listens there', told['text'])

    def test_states(self) -> None:
        """A vehicle is in the worst of its states."""
        vehicle: Any = {'silent': None, 'astray': 0, 'ready': 1, 'paused': 0}
        vehicle['order_name'] = None
        found = [state_of(vehicle, False)]
        changes: tuple[dict[str, Any], ...] = (
            *({'order_name': 'O1'}, {'paused': 1}, {'ready': 0}, {'astray': 1}, {'silent': 12}),
        )
        for changed in changes:
            vehicle = {**vehicle, **changed}
            found.append(state_of(vehicle, False))
        self.assertEqual(found, ['free', 'busy', 'paused', 'not_ready', 'astray', 'silent'])
        vehicle |= {'silent': None, 'astray': 0}
        self.assertEqual(state_of(vehicle, True), 'not_ready')
        waits: Any = {'silent': None, 'astray': 0, 'ready': 1, 'paused': 0, 'order_name': 'O1'}
        self.assertEqual(state_of(waits, True), 'waiting')
        self.assertEqual(set(STATES), {*found, 'waiting'})

    def test_a_histogram(self) -> None:
        """A time is in each class up to which it reaches, its end among them."""
        times = Histogram('x', 'y', (1, 5))
        for seconds in (0.5, 1, 1.5, 5, 7):
            times.add(seconds)
        self.assertEqual(
            times.family().lines,
            (
                'nulvrader_x_bucket{le="1"} 2',
                'nulvrader_x_bucket{le="5"} 4',
                'nulvrader_x_bucket{le="+Inf"} 5',
                'nulvrader_x_sum 15',
                'nulvrader_x_count 5',
            ),
        )


if __name__ == '__main__':
    unittest.main()
