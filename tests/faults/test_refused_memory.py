"""Shows, by refusing each allocation of the program in turn, that the call which lacks memory
is answered by the refusal for want of memory and changes nothing, and that the next run or
connection goes on from there.

The calls of the C library's heap are counted, and the k-th gets no memory, or none from the
k-th on. A move to the second schema leaves the file as before, and a report is told whole or
not at all. What a program takes by other ways than `malloc` and its like isn't reached."""
import collections
import unittest
from typing import Any

from tests.support import tracing
from tests.support.heap import Heap
from tests.support.fault_files import ALL, remove, sample, without_clock
from tests.support.faults import MEMORY, Move, asks, check_kept, moves, port_of, scripts
from tests.support.records import rows_of
from tests.support.desks import DESK, over_sockets, run, without_moments
from tests.support.refused_memory import NO_HEAP, how_it_ended, serve
from tests.support.script_calls import bytes_of, load
from tests.support.fault_test import FULL, FaultTest


@unittest.skipIf(NO_HEAP, NO_HEAP or '')
class RefusedMemory(FaultTest):
    def calls(self, name: str, script: Any, db: Any) -> Any:
        """Which calls of the heap are tried: those of the opening of a new file, which are the same
        for these scripts, with one of them alone."""
        script.start(self.db)
        opening = serve(b'', db).asked
        script.start(self.db)
        ended = serve(script.input, db)
        self.assertEqual(
            (ended.status, ended.out, ended.said, ended.refused), (0, script.out, b'', 0)
        )
        self.assertGreater(opening, 100)
        self.assertGreater(ended.asked, opening + 10 * len(script.requests))
        return range(1 if name in ('a first load', FULL) else opening + 1, ended.asked + 1)

    def check(self, db: str, times: Any, most: int) -> None:
        """A refusal at each call of the heap, also for the files of a run in memory, of which
        nothing is kept."""
        met = {'not opened': 0, 'refused': 0, 'served': 0}
        for name in scripts() if db == 'memory' else [*scripts(), FULL]:
            script = self.played(name)
            calls = self.calls(name, script, db)
            for k in sample(calls if times else calls[::7], most):
                with self.subTest(name, k=k, of=calls[-1], times=times):
                    script.start(self.db)
                    ended = serve(script.input, db, k, times)
                    how, answered = how_it_ended(self, script, ended)
                    met[how] += 1
                    if db != 'memory':
                        check_kept(self, script, self.db, answered, more=False)
            if ALL:
                print(
                    f'{name}, {"in memory" if db == "memory" else "on a file"},'
                    f' {"one" if times else "all from one on"} of the calls {calls[0]} to'
                    f' {calls[-1]} of the heap: {met} so far'
                )
        self.assertGreater(min(met['not opened'], met['refused']), most // 2, met)

    def test_one_on_a_file(self) -> None:
        self.check(self.db, 1, 22)

    def test_one_in_memory(self) -> None:
        self.check('memory', 1, 20)

    def test_all_from_one_on(self) -> None:
        self.check(self.db, None, 10)
        self.check('memory', None, 8)

    def test_a_move(self) -> None:
        """One call of the heap gets no memory, or none does from one on: the file is moved, or the
        lack is told and the file is as before."""
        met: Any = collections.Counter()
        for name, move in moves().items():
            words = [*Move.WORDS, self.db]
            move.start(self.db)
            ended = tracing.run(words, heap=Heap(DESK))
            self.assertEqual(
                (ended.status, ended.out, ended.said, ended.refused), (0, b'migrated\n', b'', 0)
            )
            self.assertGreater(ended.asked, 100)
            calls = range(1, ended.asked + 1)
            for times in (1, None):
                for k in sample(calls if times else calls[::7], 6):
                    with self.subTest(name, k=k, of=calls[-1], times=times):
                        move.start(self.db)
                        ended = tracing.run(words, heap=Heap(DESK, k, times))
                        self.assertGreaterEqual(ended.refused, 1)
                        moved = ended.status == 0
                        self.assertEqual(
                            (ended.status, ended.out, ended.said),
                            (0, b'migrated\n', b'') if moved else (1, b'', b'fault: Memory\n'),
                        )
                        self.assertEqual(
                            move.check(self, self.db, moved), 'after' if moved else 'before'
                        )
                        met['moved' if moved else 'refused'] += 1
            if ALL:
                print(f'a move, {name}, calls 1 to {calls[-1]} of the heap: {dict(met)} so far')
        self.assertGreater(met['refused'], 20, met)

    def test_a_report(self) -> None:
        """Each opening asks the heap alike, so what the stock report asks beyond the hold report is
        of the report itself. Where that gets no memory it is told so, and nothing is written."""
        loads = [f'L{number:03d}' for number in range(300)]
        status, _, said = run(
            *self.words[1:], stdin=b''.join(bytes_of(load(name)) for name in loads)
        )
        self.assertEqual((status, said), (0, b''))
        lines = [f'checking: {len(loads)}\n', *(f'  {name}\n' for name in loads), 'left: 0\n']
        whole = ''.join(lines)
        stock, holds = ([DESK, 'report', '--db', self.db, kind] for kind in ('stock', 'holds'))
        fewer, ended = tracing.run(holds, heap=Heap(DESK)), tracing.run(stock, heap=Heap(DESK))
        self.assertEqual((fewer.status, fewer.out, fewer.said), (0, b'held 0 of 0\n', b''))
        self.assertEqual((ended.status, ended.out, ended.said), (0, whole.encode(), b''))
        self.assertGreater(ended.asked, fewer.asked + 10)
        tried = sample(range(fewer.asked + 1, ended.asked + 1), 6)
        for times in (1, None):
            for k in tried:
                with self.subTest(k=k, of=ended.asked, times=times):
                    one = tracing.run(stock, heap=Heap(DESK, k, times))
                    self.assertGreaterEqual(one.refused, 1)
                    self.assertEqual((one.status, one.out, one.said), (1, b'', b'fault: Memory\n'))
        self.assertEqual(run(*stock[1:]), (0, whole.encode(), b''))
        if ALL:
            print(f'a report, {len(tried)} calls of the heap behind its opening')


@unittest.skipIf(NO_HEAP, NO_HEAP or '')
@over_sockets
class RefusedConnections(FaultTest):
    def serve(self, requests: Any, first: int | None = None) -> tuple[Any, Any, Any]:
        """The program serves each request by a connection of its own. One that isn't answered, or
        for want of memory, is asked again."""
        answers, again = [], []
        words = self.serving(len(requests) + 1)

        def beside(process: Any) -> None:
            port = port_of(process)
            if not port:
                return
            for request in requests:
                answer = asks(port, request)
                if answer in (b'', MEMORY):
                    again.append(answer)
                    answer = asks(port, request)
                answers.append(answer)
            if not again:
                asks(port, b'')

        remove(self.db)
        return tracing.run(words, heap=Heap(DESK, first), beside=beside), answers, again

    def test_one_while_connections_are_served(self) -> None:
        met = {'not opened': 0, 'asked again': 0, 'served': 0}
        for name in scripts():
            script = self.played(name)
            opening = self.serve([])[0].asked
            ended, answers, again = self.serve(script.requests)
            self.assertEqual((ended.status, ended.said, len(again)), (0, b'', 0))
            wanted = [without_moments(answer) for answer in script.answers]
            self.assertEqual([without_moments(answer) for answer in answers], wanted)
            calls = range(1 if name == 'a first load' else opening + 1, ended.asked + 1)
            for k in sample(calls, 9):
                with self.subTest(name, k=k, of=calls[-1]):
                    one, answers, again = self.serve(script.requests, k)
                    self.assertEqual(one.refused, 1)
                    if not one.out:
                        self.assertEqual((one.status, one.said), (1, b'fault: Memory\n'))
                        self.assertLessEqual(check_kept(self, script, self.db, 0, more=False), 0)
                        met['not opened'] += 1
                        continue
                    self.assertEqual((one.status, one.said), (0, b''))
                    self.assertEqual([without_moments(answer) for answer in answers], wanted)
                    self.assertEqual(
                        without_clock(rows_of(self.db)), without_clock(script.rows[-1])
                    )
                    met['asked again' if again else 'served'] += 1
            if ALL:
                print(
                    f'{name}, over connections, one of the calls {calls[0]} to {calls[-1]} of the'
                    f' heap: {met} so far'
                )
        self.assertGreater(min(met['not opened'], met['asked again']), 5, met)


if __name__ == '__main__':
    unittest.main()
