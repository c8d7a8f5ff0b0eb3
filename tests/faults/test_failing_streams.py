"""Shows that the program ends as docs/HTTP.md says where standard input or standard output
fails, and that what stands in the file is what was answered, with the call whose answer was
cut.

Standard input fails at its n-th read, or ends there; standard output fails at its n-th write,
or takes nothing or one byte. A connection that fails so ends alone, and so does one whose waits
can't be limited; one that can't be had ends the program."""
import errno
import socket
import unittest
from typing import Any

from tests.support import system_calls, tracing
from tests.support.fault_files import ALL, remove, sample, without_clock
from tests.support.faults import asks, check_kept, port_of, scripts
from tests.support.records import rows_of
from tests.support.desks import over_sockets, without_moments
from tests.support.fault_test import LACKS, FaultTest

PART = 97  # bytes that one read of standard input gives at most
BAD_HEAD = (
    b'HTTP/1.1 400 Bad Request\r\nContent-Length: 30\r\nContent-Type:'
    b' application/json\r\nConnection: close\r\n\r\n{"name":"BadHead","refusal":1}'
)


@unittest.skipIf(LACKS is not None, LACKS or '')
class FailingStreams(FaultTest):
    def serve(
        self, script: Any, told_read: Any = None, told_write: Any = None
    ) -> tuple[Any, Any, Any]:
        """The program serves the script on a new file. Its reads of standard input are of small
        parts."""
        remove(self.db)
        reads, writes = [], []

        def on_call(call: Any) -> Any:
            if call.name in ('read', 'readv') and call.file == 0:
                reads.append(call)
                told = told_read(len(reads)) if told_read else None
                return told or system_calls.Short(PART)
            if call.name in ('write', 'writev') and call.file == 1:
                writes.append(call)
                return told_write(len(writes)) if told_write else None
            return None

        return (
            tracing.run(self.words, ['read', 'readv', 'write', 'writev'], on_call, script.input),
            reads,
            writes,
        )

    def tell(self, text: str, *numbers: Any) -> None:
        if ALL:
            print(text % numbers)

    def test_reads_that_fail(self) -> None:
        """None is passed over, one that was interrupted neither."""
        failed = 0
        for name in scripts():
            script = self.played(name)
            ended, reads, _ = self.serve(script)
            self.assertEqual((ended.status, ended.out, ended.said), (0, script.out, b''))
            self.assertGreater(len(reads), len(script.input) // PART)
            for n in sample(range(1, len(reads) + 1), 12):
                for error in (errno.EIO, errno.EINTR):
                    with self.subTest(name, n=n, error=error):
                        ended, _, _ = self.serve(
                            script,
                            lambda number: system_calls.Fails(error) if number == n else None,
                        )
                        whole, _ = script.begun((n - 1) * PART)
                        self.assertEqual((ended.status, ended.said), (1, b'fault: Read\n'))
                        self.assertEqual(ended.out, b''.join(script.answers[:whole]))
                        self.assertEqual(
                            check_kept(self, script, self.db, whole, more=False), whole
                        )
                        failed += 1
        self.tell('%d reads that failed', failed)
        self.assertGreater(failed, 40)

    def test_inputs_that_end(self) -> None:
        """At the end of a request all is well; within one it is refused, and what came before it is
        answered."""
        cut, at_end = 0, 0
        for name in scripts():
            script = self.played(name)
            reads = len(script.input) // PART + 2
            for n in sample(range(1, reads + 1), 15):
                with self.subTest(name, n=n):
                    ended, _, _ = self.serve(
                        script, lambda number: system_calls.Gives(0) if number >= n else None
                    )
                    whole, more = script.begun(min((n - 1) * PART, len(script.input)))
                    self.assertEqual((ended.status, ended.said), (0, b''))
                    self.assertEqual(
                        ended.out, b''.join(script.answers[:whole]) + (BAD_HEAD if more else b'')
                    )
                    self.assertEqual(check_kept(self, script, self.db, whole, more=False), whole)
                    cut, at_end = cut + more, at_end + (not more)
        self.tell('%d inputs that ended within a request, %d at the end of one', cut, at_end)
        self.assertGreater(cut, 20)
        self.assertGreater(at_end, 3)

    def test_writes_that_fail(self) -> None:
        """The call whose answer can't be written is carried out; none behind it is. No write is
        made again."""
        failed = 0
        faults = [
            *map(system_calls.Fails, (errno.EIO, errno.EPIPE, errno.ENOSPC, errno.EINTR)),
            system_calls.Gives(0),
        ]
        for name in scripts():
            script = self.played(name)
            ended, _, writes = self.serve(script)
            self.assertEqual(ended.out, script.out)
            self.assertGreaterEqual(len(writes), len(script.requests))
            for n in sample(range(1, len(writes) + 1), 6):
                for told in faults:
                    with self.subTest(name, n=n, told=vars(told)):
                        ended, _, _ = self.serve(
                            script, None, lambda number: told if number == n else None
                        )
                        self.assertEqual((ended.status, ended.said), (1, b'fault: Write\n'))
                        answered = script.whole(ended.out)
                        self.assertEqual(
                            answered, n - 1 if len(writes) == len(script.requests) else answered
                        )
                        self.assertEqual(rows_of(self.db), script.rows[answered + 1])
                        check_kept(self, script, self.db, answered)
                        failed += 1
        self.tell('%d writes that failed', failed)
        self.assertGreater(failed, 60)

    def test_writes_of_a_byte(self) -> None:
        """One write, or each from one on, takes a byte: all is written in the end. One byte, and
        then nothing: an answer is cut."""
        cut = 0
        for name in scripts():
            script = self.played(name)
            _, _, writes = self.serve(script)
            for n in sample(range(1, len(writes) + 1), 4):
                with self.subTest(name, n=n):
                    ended, _, _ = self.serve(
                        script, None, lambda number: system_calls.Short(1) if number == n else None
                    )
                    self.assertEqual((ended.status, ended.out, ended.said), (0, script.out, b''))
                    ended, _, _ = self.serve(
                        script,
                        None,
                        lambda number: (
                            system_calls.Short(1)
                            if n <= number < n + 40
                            else system_calls.Fails(errno.EIO)
                            if number == n + 40
                            else None
                        ),
                    )
                    self.assertEqual((ended.status, ended.said), (1, b'fault: Write\n'))
                    answered = script.whole(ended.out)
                    self.assertEqual(
                        ended.out, script.out[: len(b''.join(script.answers[: n - 1])) + 40]
                    )
                    self.assertEqual(rows_of(self.db), script.rows[answered + 1])
                    check_kept(self, script, self.db, answered)
                    cut += 1
            ended, _, _ = self.serve(script, None, lambda number: system_calls.Short(1))
            self.assertEqual((ended.status, ended.out, ended.said), (0, script.out, b''))
        self.tell('%d answers cut within', cut)
        self.assertGreater(cut, 10)


@unittest.skipIf(LACKS is not None, LACKS or '')
@over_sockets
class FailingConnections(FaultTest):
    def serve(self, script: Any, name: str, told: Any) -> tuple[Any, Any]:
        """The program serves each request by a connection of its own. Which requests weren't
        answered whole; where the fault isn't of writes they are asked again."""
        answers, lost, seen = [], [], []
        wanted = [without_moments(answer) for answer in script.answers]
        words = self.serving(len(script.requests) + 1)

        def on_call(call: Any) -> Any:
            if (
                not call.path.startswith('socket:')
                or name == 'setsockopt'
                and call.words[2] == socket.SO_REUSEADDR
            ):
                return None
            seen.append(call)
            return told(len(seen)) if told else None

        def beside(process: Any) -> None:
            port = port_of(process)
            for number, request in enumerate(script.requests):
                answer = without_moments(asks(port, request))
                if answer != wanted[number]:
                    lost.append(number)
                    if name != 'sendto':
                        answer = without_moments(asks(port, request))
                answers.append(answer)
            if not lost or name == 'sendto':
                asks(port, b'')

        remove(self.db)
        ended = tracing.run(words, [name], on_call, beside=beside)
        self.assertEqual((ended.status, ended.said), (0, b''))
        self.assertEqual(without_clock(rows_of(self.db)), without_clock(script.rows[-1]))
        for number, answer in enumerate(answers):
            if number in lost and name == 'sendto':
                self.assertTrue(wanted[number].startswith(answer))
            else:
                self.assertEqual(answer, wanted[number])
        return lost, seen

    def check(self, name: str, most: int, faults: Any, also: Any = ()) -> None:
        """Calls of this name fail: of a script of few calls each one, and by the other faults too.
        Whichever error it is, the same is lost."""
        met = {'lost': 0, 'whole': 0}
        for title in scripts():
            script = self.played(title)
            lost, seen = self.serve(script, name, None)
            self.assertEqual(lost, [])
            self.assertGreaterEqual(len(seen), len(script.requests))
            short = ALL or len(seen) <= 8
            for n in sample(range(1, len(seen) + 1), len(seen) if short else most):
                of_errors = set()
                for fault in [*faults, *also] if short else faults:
                    with self.subTest(title, n=n, fault=vars(fault)):
                        lost, _ = self.serve(
                            script, name, lambda number: fault if number == n else None
                        )
                        self.assertLessEqual(len(lost), 1)
                        met['lost' if lost else 'whole'] += 1
                        if isinstance(fault, system_calls.Fails):
                            of_errors.add(tuple(lost))
                self.assertEqual(len(of_errors), 1, (title, n))
        if ALL:
            print(f'{name} of a connection: {met}')
        self.assertGreater(met['lost'], 10)

    def test_reads_that_fail(self) -> None:
        """The connection ends, and the next one is served."""
        self.check(
            'recvfrom',
            5,
            (system_calls.Fails(errno.EIO), system_calls.Gives(0)),
            [system_calls.Fails(errno.EINTR)],
        )

    def test_writes_that_fail(self) -> None:
        """The call stands, and the next connection is served."""
        self.check(
            'sendto',
            4,
            (system_calls.Fails(errno.EPIPE), system_calls.Gives(0), system_calls.Short(1)),
            [system_calls.Fails(errno.EINTR)],
        )

    def test_waits_that_can_not_be_limited(self) -> None:
        """The connection ends before anything is read of it, and the next one is served."""
        self.check(
            'setsockopt', 4, (system_calls.Fails(errno.ENOMEM), system_calls.Fails(errno.EINVAL))
        )

    def lack(self, script: Any, n: Any) -> tuple[Any, Any, Any]:
        """The program has one descriptor too few at its n-th connection. How it ends, what those
        before were answered, and how often it asked for one."""
        seen: list[Any] = []
        answers: list[Any] = []
        words = self.serving(len(script.requests) + 1)

        def on_call(call: Any) -> Any:
            seen.append(call)
            return system_calls.Fails(errno.EMFILE) if len(seen) == n else None

        def beside(process: Any) -> None:
            port = port_of(process)
            answers.extend(
                without_moments(asks(port, request)) for request in script.requests[: n - 1]
            )

        remove(self.db)
        return (
            tracing.run(words, ['accept', 'accept4'], on_call, beside=beside, limit=300),
            answers,
            seen,
        )

    def test_connections_that_can_not_be_had(self) -> None:
        """The program ends by it, told as such. What it has answered before is in the file, and it
        takes no further connection."""
        failed = 0
        for title in scripts():
            script = self.played(title)
            for n in sample(range(1, len(script.requests) + 1), 2):
                with self.subTest(title, n=n):
                    ended, answers, seen = self.lack(script, n)
                    self.assertEqual((ended.status, ended.said, len(seen)), (1, b'fault: Net\n', n))
                    self.assertRegex(ended.out, rb'^listening on 127\.0\.0\.1:\d+\n$')
                    self.assertEqual(
                        answers, [without_moments(answer) for answer in script.answers[: n - 1]]
                    )
                    self.assertEqual(
                        without_clock(rows_of(self.db)), without_clock(script.rows[n - 1])
                    )
                    failed += 1
        if ALL:
            print(f'{failed} connections that could not be had')
        self.assertGreater(failed, 10)


if __name__ == '__main__':
    unittest.main()
