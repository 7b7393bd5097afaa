"""The client for Python: by threads and by asyncio."""
import asyncio
import contextlib
import functools
import json
import os
import random
import signal
import subprocess
import sys
import threading
import time
import unittest
from unittest import mock

from common import ACCOUNTS, CLIENT_PATH, CLIENTS, HELD, PROGRAM, SECONDS, Case, Model
import vll

THREADS = 64
# Answers each line with a place and the number of lines so far, but for these lines: ANSWERS.
ANSWERING = '''
number = 0
for text in sys.stdin.buffer:
    print(ANSWERS.get(number, '{"call":%d,"committed":[%d]}' % (number, number)), flush=True)
    number += 1
print('{"calls":%d,"records":[]}' % number)
'''
# Its last line has as a record how many lines it has found at most before it answers.
COUNTING = '''
most = calls = 0
while True:
    time.sleep(0.01)
    text = os.read(0, 1 << 20)
    if not text: break
    lines = text.count(b'\\n'); most = max(most, lines)
    for _ in range(lines):
        print('{"call":%d,"committed":[]}' % calls); calls += 1
    sys.stdout.flush()
print('{"calls":%d,"records":[%d]}' % (calls, most))
'''
# Answers each line with its client and its arguments.
ECHOING = '''
import json
for number, text in enumerate(map(json.loads, sys.stdin.buffer)):
    print(json.dumps({'call': number, 'committed': [text['client'], *text['args']]}), flush=True)
print('{"calls":%d,"records":[]}' % (number + 1))
'''
TWICE_ANSWERING = '''
input()
print('{"call":0,"committed":[]}\\n{"call":1,"committed":[]}', flush=True)
'''
ANSWERING_TWO = '''
for _ in range(2): sys.stdin.buffer.readline()
print('{"call":0,"committed":[]}\\n{"call":1,"committed":[]}\\n{"calls":2,"records":[]}', flush=True)
'''
# Answers 15 of 16 lines once it is clear that all wait, and the last one after one more.
ANSWERING_MOST = '''
def answer(first, end, last=''):
    print(*['{"call":%d,"committed":[]}' % number for number in range(first, end)], last, sep='\\n', end='', flush=True)
for _ in range(16): sys.stdin.buffer.readline()
time.sleep(1)
answer(0, 15)
sys.stdin.buffer.readline()
answer(15, 17, '{"calls":17,"records":[]}\\n')
'''
NEVER_ANSWERING = 'while os.read(0, 65536): pass\n'
# What it says of a scenario that it refuses: as much as an explanation may have.
EXPLAINED = f'vll: scenario: json\nat: line 1, column 1\nwhy: {"x" * 20000}'
REFUSING = f'print({EXPLAINED!r}, file=sys.stderr); sys.exit(2)\n'


def outcome(call):
    """What a call gives, in the members of an answer."""
    try:
        reply = call()
        return {'call': reply.call, 'committed': list(reply)}
    except vll.Aborted as why:
        return {'call': why.call, 'aborted': why.reason}


def moves(seed, count):
    """Random calls: a procedure and its arguments."""
    draw = random.Random(seed)
    for _ in range(count):
        if draw.random() < 0.2:
            yield 'balance', draw.randrange(ACCOUNTS)
        else:
            yield 'transfer', draw.randrange(ACCOUNTS), draw.randrange(ACCOUNTS), draw.randrange(60)


class Both(Case):
    """What holds of the calls of all clients."""

    def judge(self, found, last):
        """Calls and what each gave are those of the model, in the order of their places."""
        model = Model()
        found = sorted(found, key=lambda each: each[1]['call'])
        self.assertEqual([given for _, given in found], [model.call(*asked) for asked, _ in found])
        self.assertEqual(last, (model.calls, model.records))


class Threads(Both):
    def service(self, **how):
        return vll.Service(self.file, **{'program': PROGRAM, **how})

    def test_calls_have_outputs_and_places(self):
        with self.service() as bank:
            reply = bank.transfer(0, 1, 30)
            self.assertEqual((reply, reply.call), ([70], 0))
            reply = bank.call('balance', 1, client=9)
            self.assertEqual((reply, reply.call), ([130], 1))
            self.assertEqual(bank.submit('balance', 0).result(), [70])
        self.assertEqual(bank.last, (3, [70, 130] + [HELD] * 6))

    def test_wrong_calls_are_not_written(self):
        """A service that commits each line sees the last one alone."""
        with self.service(program=self.stand_in(ECHOING)) as bank:
            for proc, args, client in [('transfer', (0, 1), 0), ('transfer', (0, 1, 2, 3), 0), ('balance', (0.5,), 0),
                                       ('balance', ('0',), 0), ('balance', (-1,), 0), ('balance', (2 ** 64,), 0),
                                       ('sum', (), 0), ('balance', (0,), 10), ('balance', (0,), -1)]:
                with self.assertRaises(vll.Fault, msg=(proc, args, client)):
                    bank.submit(proc, *args, client=client)
            with self.assertRaises(AttributeError):
                bank.sum(1)
            self.assertEqual(bank.balance(True), [0, 1])
        self.assertEqual(bank.last.calls, 1)

    def test_reasons_are_told_apart(self):
        scenario = json.loads(self.file.read_text())
        scenario['procs'] += [
            {'name': 'add', 'args': 2, 'keys': [], 'body': [['reply', ['add', ['arg', 0], ['arg', 1]]]]},
            {'name': 'é"%d', 'args': 1, 'keys': [], 'body': [['reply', ['div', 7, ['arg', 0]]]]}]
        self.file.write_text(json.dumps(scenario))
        with self.service() as bank:
            self.assertEqual(bank.add(2 ** 64 - 2, 1), [2 ** 64 - 1])
            for reason, call in [('overflow', lambda: bank.add(2 ** 64 - 1, 1)), (1, lambda: bank.transfer(0, 1, 101)),
                                 ('zero divisor', lambda: bank.call('é"%d', 0))]:
                with self.assertRaises(vll.Aborted) as raised:
                    call()
                self.assertEqual(raised.exception.reason, reason)
                self.assertNotIsInstance(raised.exception, vll.Moved)
            with self.assertRaises(vll.Fault):
                bank.balance(ACCOUNTS)
            self.assertEqual(bank.balance(0).call, 4)

    def test_moved_is_an_exception_of_its_own(self):
        answers = {1: '{"call":1,"aborted":"moved"}'}
        with self.service(program=self.stand_in(f'ANSWERS = {answers!r}{ANSWERING}')) as bank:
            futures = [bank.submit('balance', 0) for _ in range(3)]
            self.assertEqual(futures[2].result(), [2])
            self.assertIsInstance(futures[1].exception(), vll.Moved)
            self.assertEqual(futures[0].result(), [0])

    def test_numbers_come_and_go_in_their_places(self):
        with self.service(program=self.stand_in(ECHOING)) as bank:
            self.assertEqual(bank.transfer(2 ** 64 - 1, 0, 2 ** 53 + 1, client=7), [7, 2 ** 64 - 1, 0, 2 ** 53 + 1])
            self.assertEqual(bank.submit('balance', 5, client=9).result(), [9, 5])

    def test_many_threads_are_one_serial_run(self):
        found = [[] for _ in range(THREADS)]

        def work(number):
            for asked in moves(number, 100):
                found[number].append((asked, outcome(lambda: bank.call(*asked, client=number % CLIENTS))))

        def work_ahead(number):
            ahead = [(asked, bank.submit(*asked)) for asked in moves(number, 100)]
            found[number] += [(asked, outcome(future.result)) for asked, future in ahead]
        with self.service(in_flight=100) as bank:
            threads = [threading.Thread(target=(work, work_ahead)[number % 2], args=[number])
                       for number in range(THREADS)]
            for thread in threads:
                thread.start()
            for thread in threads:
                thread.join(SECONDS)
        self.assertEqual([len(each) for each in found], [100] * THREADS)
        for each in found:
            self.assertEqual(sorted(given['call'] for _, given in each), [given['call'] for _, given in each])
        self.judge([pair for each in found for pair in each], bank.last)

    def run_all(self, *works):
        """Runs these in threads, which all have to end. Nobody looks after their calls if `TICK` is long."""
        threads = [threading.Thread(target=work, daemon=True) for work in works]
        for thread in threads:
            thread.start()
        until = time.monotonic() + SECONDS
        for thread in threads:
            thread.join(max(0, until - time.monotonic()))
        self.assertFalse(any(thread.is_alive() for thread in threads))

    def test_no_wake_up_is_lost(self):
        """Whoever waits is woken by the others, and some give up waiting."""
        def work(number):
            for ahead in (1, 3) * 30:
                futures = [bank.submit('transfer', number % ACCOUNTS, 0, 0) for _ in range(ahead)]
                with contextlib.suppress(TimeoutError):
                    futures[-1].result(0.0001 if number % 8 == 7 else None)
                for future in futures:
                    future.result()
        for in_flight in 1000, 40:
            with mock.patch.object(vll, 'TICK', 2 * SECONDS), self.service(in_flight=in_flight) as bank:
                self.run_all(*[functools.partial(work, number) for number in range(THREADS)])

    def test_whoever_sleeps_has_written(self):
        """The first call is answered after the second line."""
        with mock.patch.object(vll, 'TICK', 2 * SECONDS), self.service(program=self.stand_in(ANSWERING_TWO)) as bank:
            reader = threading.Thread(target=bank.submit('balance', 0).result, daemon=True)
            reader.start()
            time.sleep(0.1)
            self.run_all(lambda: bank.balance(0), lambda: reader.join(SECONDS))

    def test_the_last_one_who_is_woken_writes(self):
        """The first one waits again meanwhile, and whoever reads waits for the call behind that one's first."""
        def work(future):
            future.result()
            if is_first.acquire(blocking=False):
                bank.balance(0)
        is_first = threading.Lock()
        with mock.patch.object(vll, 'TICK', 2 * SECONDS), self.service(program=self.stand_in(ANSWERING_MOST)) as bank:
            futures = [bank.submit('balance', 0) for _ in range(16)]
            reader = threading.Thread(target=futures[15].result, daemon=True)
            reader.start()
            time.sleep(0.1)
            self.run_all(*[functools.partial(work, future) for future in futures[:15]])
            reader.join(SECONDS)

    def test_many_calls_are_written_ahead(self):
        """Far more than both pipes hold: whoever writes also reads."""
        asked = list(moves(1, 50000))
        for in_flight in 1, 100000:
            with self.service(in_flight=in_flight) as bank:
                count = 300 if in_flight == 1 else len(asked)
                futures = [bank.submit(*each) for each in asked[:count]]
                found = [(each, outcome(future.result)) for each, future in zip(asked, futures)]
            self.judge(found, bank.last)

    def test_lines_wait_in_their_order(self):
        """The service reads nothing at first, so not all is written at once, and more lines come meanwhile."""
        count, write = 5000, os.write

        def write_slowly(*words):
            try:
                return write(*words)
            finally:
                time.sleep(0.002)
        with mock.patch.object(os, 'write', write_slowly), \
                self.service(program=self.stand_in('time.sleep(0.3)\n' + ECHOING), in_flight=count) as bank:
            futures = [bank.submit('balance', number) for number in range(count)]
            self.assertEqual([future.result() for future in futures], [[0, number] for number in range(count)])

    def test_nobody_has_to_wait(self):
        """Also if somebody has waited before."""
        done = threading.Event()
        with self.service() as bank:
            bank.balance(0)
            future = bank.submit('transfer', 0, 1, 30)
            future.add_done_callback(lambda _: done.set())
            self.assertTrue(done.wait(SECONDS))
            self.assertTrue(future.done())
            for _ in range(5000):
                bank.submit('transfer', 0, 1, 0)
        self.assertEqual(bank.last.calls, 5002)

    def test_in_flight_is_kept(self):
        """A service that counts what it can read before it answers never finds more."""
        with self.service(program=self.stand_in(COUNTING), in_flight=7) as bank:
            for _ in range(100):
                bank.submit('balance', 0)
        self.assertEqual(bank.last, (100, [7]))

    def test_others_call_while_it_is_closed(self):
        """Each call has an answer, or was refused and not made."""
        def work():
            with contextlib.suppress(vll.Ended):
                while True:
                    futures.append(bank.submit('balance', 0))
        for number in range(10):
            futures, bank = [], self.service(in_flight=10 ** (1 + number % 5))
            closing = functools.partial(bank.close, SECONDS)
            self.run_all(*[work] * 5, closing, *[work] * 5)
            for future in futures:
                future.result()
            self.assertEqual(bank.last.calls, len(futures))

    def test_time_runs_out(self):
        with self.service(program=self.stand_in('time.sleep(0.5)\nANSWERS = {}' + ANSWERING)) as bank:
            future = bank.submit('balance', 0)
            with self.assertRaises(TimeoutError):
                future.result(0.01)
            sleeper = threading.Thread(target=future.result)
            sleeper.start()
            with self.assertRaises(TimeoutError):
                future.exception(0.01)
            self.assertEqual(future.result(SECONDS), [0])
            sleeper.join(SECONDS)

    def test_the_end_fails_what_is_in_flight(self):
        bank = self.service(program=self.stand_in(NEVER_ANSWERING))
        futures = [bank.submit('balance', 0) for _ in range(10)]
        raised = []

        def wait(future):
            try:
                future.result()
            except vll.Ended as why:
                raised.append(why)
        threads = [threading.Thread(target=wait, args=[future]) for future in futures[:5]]
        for thread in threads:
            thread.start()
        time.sleep(0.1)
        bank.kill()
        for thread in threads:
            thread.join(SECONDS)
        self.assertEqual(len(raised), 5)
        for future in futures:
            self.assertIsInstance(future.exception(SECONDS), vll.Ended)
        for call in bank.close, lambda: bank.submit('balance', 0), lambda: bank.balance(0):
            self.assertRaises(vll.Ended, call)
        self.assertIsNone(bank.last)

    def test_why_it_ended_is_told(self):
        for how, said in ({'program': self.stand_in(REFUSING)}, EXPLAINED), ({}, self.refused().strip()):
            with self.assertRaises(vll.Ended) as raised:
                with self.service(**how) as bank:
                    bank.balance(0)
            self.assertEqual(str(raised.exception), f'the service has ended: status 2: {said}')
        with self.assertRaisesRegex(vll.Ended, 'no answer'):
            with self.service(program=self.stand_in('print("what?", flush=True)\n' + NEVER_ANSWERING)) as bank:
                bank.balance(0)
        with self.assertRaisesRegex(vll.Ended, 'more answers than calls'):
            with self.service(program=self.stand_in(TWICE_ANSWERING)) as bank:
                bank.submit('balance', 0).result(SECONDS)
        self.assertRaises(FileNotFoundError, self.service, program='/nowhere/vll')

    def test_an_error_of_the_caller_is_not_hidden(self):
        with self.assertRaises(ZeroDivisionError):
            with self.service(program=self.stand_in(REFUSING)):
                1 // 0

    def test_a_long_last_line(self):
        scenario = json.loads(self.file.read_text())
        scenario['records'] = [2 ** 64 - 1] * 65536
        self.file.write_text(json.dumps(scenario))
        with self.service() as bank:
            self.assertEqual(bank.balance(65535), [2 ** 64 - 1])
        self.assertEqual(bank.last.records, scenario['records'])

    def test_interrupts(self):
        """Ctrl-C reaches the caller alone, also while it waits for an answer, and spoils no other call."""
        slow = self.stand_in('time.sleep(1)\nANSWERS = {}' + ANSWERING)
        # what is started in the background of a shell ignores Ctrl-C
        script = '''
import signal, sys, vll
signal.signal(signal.SIGINT, signal.default_int_handler)
bank = vll.Service(sys.argv[1], sys.argv[2])
first, second = bank.submit('balance', 0), bank.submit('balance', 0)
try:
    print('waits', flush=True)
    first.result()
    print('was not interrupted')
except KeyboardInterrupt:
    print(first.result(), second.result(), bank.balance(0), bank.close().calls)
'''
        running = subprocess.Popen([sys.executable, '-c', script, str(self.file), str(slow)], stdout=subprocess.PIPE,
                                   start_new_session=True, env=CLIENT_PATH)
        self.assertEqual(running.stdout.readline(), b'waits\n')
        time.sleep(0.1)
        os.killpg(running.pid, signal.SIGINT)
        self.assertEqual(running.communicate(timeout=SECONDS)[0], b'[0] [1] [2] 3\n')


class Asyncio(Both):
    def service(self, **how):
        return vll.AsyncService(self.file, **{'program': PROGRAM, **how})

    def run_with(self, work, **how):
        async def whole():
            async with self.service(**how) as bank:
                await work(bank)
            return bank
        return asyncio.run(asyncio.wait_for(whole(), SECONDS))

    def test_many_tasks_are_one_serial_run(self):
        found = []

        async def work(bank, number):
            for asked in moves(number, 20):
                try:
                    reply = await bank.call(*asked, client=number % CLIENTS)
                    found.append((asked, {'call': reply.call, 'committed': list(reply)}))
                except vll.Aborted as why:
                    found.append((asked, {'call': why.call, 'aborted': why.reason}))

        async def all_work(bank):
            await asyncio.gather(*[work(bank, number) for number in range(300)])
        for in_flight in 1000, 7:
            found.clear()
            bank = self.run_with(all_work, in_flight=in_flight)
            self.assertEqual(len(found), 6000)
            self.judge(found, bank.last)

    def test_reasons_are_told_apart(self):
        async def work(bank):
            self.assertEqual(await bank.transfer(0, 1, 30), [70])
            with self.assertRaises(vll.Aborted) as raised:
                await bank.transfer(0, 1, 71)
            self.assertEqual(raised.exception.reason, 1)
            for wrong in lambda: bank.balance(), lambda: bank.balance(1.5), lambda: bank.balance(ACCOUNTS):
                with self.assertRaises(vll.Fault):
                    await wrong()
            self.assertEqual((await bank.balance(0)).call, 2)
        self.assertEqual(self.run_with(work).last.calls, 3)

    def test_in_flight_is_kept(self):
        async def work(bank):
            await asyncio.gather(*[bank.submit('balance', 0) for _ in range(100)])
        bank = self.run_with(work, program=self.stand_in(COUNTING), in_flight=7)
        self.assertEqual(bank.last, (100, [7]))

    def test_close_waits_for_all_calls(self):
        async def whole():
            bank = await self.service(in_flight=3).start()
            futures = [bank.submit('transfer', 0, 1, 1) for _ in range(50)]
            last = await asyncio.wait_for(bank.close(), SECONDS)
            return last.calls, [future.result()[0] for future in futures]
        self.assertEqual(asyncio.run(whole()), (50, list(range(99, 49, -1))))

    def test_numbers_come_and_go_in_their_places(self):
        async def work(bank):
            self.assertEqual(await bank.transfer(2 ** 64 - 1, 0, 2 ** 53 + 1, client=7),
                             [7, 2 ** 64 - 1, 0, 2 ** 53 + 1])
        self.run_with(work, program=self.stand_in(ECHOING))

    def test_moved_is_an_exception_of_its_own(self):
        async def work(bank):
            with self.assertRaises(vll.Moved):
                await bank.balance(0)
        answers = {0: '{"call":0,"aborted":"moved"}'}
        self.run_with(work, program=self.stand_in(f'ANSWERS = {answers!r}{ANSWERING}'))

    def test_a_cancelled_call_leaves_the_others_right(self):
        async def work(bank):
            futures = [bank.submit('balance', number % ACCOUNTS) for number in range(10)]
            await asyncio.sleep(0)
            for future in futures[::2]:
                future.cancel()
            self.assertEqual([(await future).call for future in futures[1::2]], [1, 3, 5, 7, 9])
        self.run_with(work)

    def test_the_end_fails_what_is_in_flight(self):
        async def work(bank):
            futures = [bank.submit('balance', 0) for _ in range(10)]
            await asyncio.sleep(0.1)
            bank.kill()
            for found in await asyncio.gather(*futures, return_exceptions=True):
                self.assertIsInstance(found, vll.Ended)
            with self.assertRaises(vll.Ended):
                bank.submit('balance', 0)
        for in_flight in 1000, 3:
            with self.assertRaises(vll.Ended):
                self.run_with(work, program=self.stand_in(NEVER_ANSWERING), in_flight=in_flight)

    def test_why_it_ended_is_told(self):
        async def work(bank):
            await bank.balance(0)
        for how, said in ({'program': self.stand_in(REFUSING)}, EXPLAINED), ({}, self.refused().strip()):
            with self.assertRaises(vll.Ended) as raised:
                self.run_with(work, **how)
            self.assertEqual(str(raised.exception), f'the service has ended: status 2: {said}')


if __name__ == '__main__':
    unittest.main()
