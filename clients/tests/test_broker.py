"""The broker without a log: many connections share one service."""
import contextlib
import json
import os
import signal
import socket
import stat
import subprocess
import sys
import threading
import time
import unittest

from common import ACCOUNTS, CLIENT_PATH, CLIENTS, HELD, SECONDS, Case, Model, ask, line, read_lines, read_to_end

BALANCE = line('balance', 0)
LONGEST = 65536
# Answers the first line, and the others once there is the file GATE.
WAITING = '''
import json
for number, text in enumerate(sys.stdin.buffer):
    while number and not os.path.exists(GATE): time.sleep(0.01)
    print('{"id":"%s","call":%d,"committed":[]}' % (json.loads(text)['id'], number), flush=True)
print('{"calls":%d,"records":[]}' % (number + 1))
'''
# Writes each answer, and the last line, in two pieces.
IN_PIECES = '''
def write(text):
    os.write(1, text[:9])
    time.sleep(0.02)
    os.write(1, text[9:])
for number, _ in enumerate(sys.stdin.buffer):
    write(b'{"call":%d,"committed":[]}\\n' % number)
write(b'{"calls":%d,"records":[]}\\n' % (number + 1))
'''


class Sharing(Case):
    def test_each_connection_gets_its_own_answers(self):
        asked, found = {}, {}

        def work(number):
            with broker.connect() as connection:
                for turn in range(20):
                    lines = [line('transfer', (number + at) % ACCOUNTS, at, turn, client=number % CLIENTS,
                                  id=f'{number} {turn} {at}') for at in range(1 + number % 8)]
                    for text, answer in zip(lines, ask(connection, *lines)):
                        own = json.loads(text)
                        self.assertEqual(own['id'], answer.pop('id'))
                        found[answer['call']], asked[answer['call']] = answer, own['args']
        with self.broker() as broker:
            threads = [threading.Thread(target=work, args=[number]) for number in range(64)]
            for thread in threads:
                thread.start()
            for thread in threads:
                thread.join(SECONDS)
            status, last, said = broker.end()
        self.assertEqual((status, said), (0, ''))
        self.assertEqual(len(found), 64 * 20 * 9 // 2)
        model = Model()
        for call in range(len(found)):
            self.assertEqual(found[call], model.call('transfer', *asked[call]))
        self.assertEqual(last, {'calls': model.calls, 'records': model.records})

    def test_the_socket_is_of_this_user_alone_and_goes(self):
        with self.broker() as broker:
            broker.connect().close()
            self.assertEqual(stat.S_IMODE(os.stat(self.socket).st_mode), 0o600)
            self.assertEqual(broker.end()[0], 0)
        self.assertFalse(self.socket.exists())

    def test_processes_share_it_by_the_client(self):
        script = '''
import asyncio, sys, vll
with vll.Service(sys.argv[1], socket=sys.argv[2]) as bank:
    for future in [bank.submit('transfer', 0, 1, 1) for _ in range(20)]:
        future.result()
async def more():
    async with vll.AsyncService(sys.argv[1], socket=sys.argv[2]) as bank:
        await bank.transfer(1, 0, 20)
    return bank.last
print(bank.last, asyncio.run(more()))
'''
        with self.broker() as broker:
            broker.connect().close()
            command = [sys.executable, '-c', script, str(self.file), str(self.socket)]
            running = [subprocess.Popen(command, stdout=subprocess.PIPE, env=CLIENT_PATH) for _ in range(4)]
            for each in running:
                self.assertEqual((each.communicate(timeout=SECONDS)[0], each.returncode), (b'None None\n', 0))
            self.assertEqual(broker.end()[:2], (0, {'calls': 84, 'records': [HELD] * ACCOUNTS}))

    def test_a_second_broker_is_refused_and_a_dead_ones_socket_taken(self):
        with self.broker() as broker:
            broker.connect().close()
            with self.broker() as second:
                status, _, said = second.ended()
            self.assertEqual(status, 2)
            self.assertIn('in use', said)
            with broker.connect() as connection:
                self.assertEqual(len(ask(connection, BALANCE)), 1)
            broker.kill()
        self.assertTrue(self.socket.exists())
        with self.broker() as broker, broker.connect() as connection:
            self.assertEqual(len(ask(connection, BALANCE)), 1)
        self.socket.unlink()
        self.socket.write_text('kept')
        with self.broker() as broker:
            self.assertEqual(broker.ended()[0], 2)
        self.assertEqual(self.socket.read_text(), 'kept')


class Trouble(Case):
    """What one connection does harms no other one."""

    def setUp(self):
        super().setUp()
        self.at_work = self.enter(self.broker())

    def enter(self, context):
        self.addCleanup(context.__exit__, None, None, None)
        return context.__enter__()

    def connect(self):
        return self.enter(self.at_work.connect())

    def one_by_one(self, count=100):
        """Another connection makes calls meanwhile, and gets its answers."""
        connection = self.connect()
        for number in range(count):
            self.assertEqual([answer['id'] for answer in ask(connection, line('balance', 1, id=number))], [number])

    def test_one_that_does_not_read_is_cut_off(self):
        greedy, cut = self.connect(), []

        def write():
            try:
                while True:
                    greedy.sendall(BALANCE * 500)
            except OSError as why:
                cut.append(why)
        thread = threading.Thread(target=write)
        thread.start()
        self.one_by_one()
        thread.join(SECONDS)
        self.assertIsInstance(cut[0], (BrokenPipeError, ConnectionResetError))
        self.one_by_one()

    def test_a_line_that_is_too_long(self):
        connection = self.connect()
        for pieces in ([b'x' * 3 * LONGEST + b'\n' + BALANCE], [b'x' * LONGEST, b'x' * LONGEST, b'\n', BALANCE],
                       [b' ' * LONGEST + BALANCE, BALANCE]):
            for piece in pieces:
                connection.sendall(piece)
                time.sleep(0.01)
            long, well = map(json.loads, read_lines(connection, 2))
            self.assertEqual(long, {'fault': 'the line has more than 65536 bytes'})
            self.assertEqual(well['committed'], [HELD])
        endless = self.connect()
        for _ in range(100):
            endless.sendall(b'x' * LONGEST)
        self.one_by_one()
        self.assertEqual(ask(connection, b' ' * (LONGEST - len(BALANCE) + 1) + BALANCE)[0]['committed'], [HELD])

    def test_one_that_breaks_off(self):
        enough = threading.Event()

        def break_off():
            while not enough.is_set():
                for count in range(1, len(BALANCE), 4):
                    with self.at_work.connect() as connection:
                        connection.sendall(BALANCE * 30 + BALANCE[:count])
                    time.sleep(0.002)
        breaking = threading.Thread(target=break_off)
        breaking.start()
        try:
            self.one_by_one(50)
        finally:
            enough.set()
            breaking.join(SECONDS)
        self.one_by_one()

    def test_the_end_of_what_is_written(self):
        """All is answered after it, also a last line without its line feed."""
        for text, count in [(BALANCE * 5000, 5000), (BALANCE * 3 + BALANCE[:-1], 4), (BALANCE[:-1], 1), (b'', 0)]:
            connection = self.connect()
            writing = threading.Thread(target=lambda: (connection.sendall(text), connection.shutdown(socket.SHUT_WR)))
            writing.start()
            found = read_to_end(connection)
            writing.join(SECONDS)
            self.assertEqual([json.loads(answer)['committed'] for answer in found], [[HELD]] * count)

    def test_many_connections(self):
        connections = [self.connect() for _ in range(500)]
        for number, connection in enumerate(connections):
            connection.sendall(line('balance', 1, id=number))
        for number, connection in enumerate(connections):
            self.assertEqual(json.loads(read_lines(connection, 1)[0])['id'], number)


class Turns(Case):
    def test_answers_come_in_pieces(self):
        with self.broker(program=self.stand_in(IN_PIECES)) as broker, broker.connect() as one, broker.connect() as two:
            for connection in one, two:
                connection.sendall(BALANCE * 10)
            calls = [[json.loads(answer)['call'] for answer in read_lines(each, 10)] for each in (one, two)]
            self.assertEqual(sorted(calls), [list(range(10)), list(range(10, 20))])
            self.assertEqual(broker.end()[:2], (0, {'calls': 20, 'records': []}))

    def test_answers_of_lost_connections_go_to_nobody(self):
        gate = self.room / 'gate'
        waiting = self.stand_in(f'GATE = {str(gate)!r}{WAITING}')
        with self.broker(program=waiting) as broker, broker.connect() as other:
            with broker.connect() as lost:
                lost.sendall(line('balance', 0, id='lost'))
                self.assertEqual(lost.recv(1, socket.MSG_PEEK), b'{')
                lost.sendall(line('balance', 0, id='lost') * 3)
                # it has an answer that it has not read, so the broker sees at once that it is gone
                broker.without(lost)
            asked = [f'own {number}' for number in range(3)]
            other.sendall(b''.join(line('balance', 1, id=name) for name in asked))
            with broker.connect() as late:
                late.sendall(line('balance', 1, id='late'))
                gate.touch()
                self.assertEqual([json.loads(each)['id'] for each in read_lines(other, 3)], asked)
                self.assertEqual([json.loads(each)['id'] for each in read_lines(late, 1)], ['late'])
            self.assertEqual(broker.end()[:2], (0, {'calls': 8, 'records': []}))


class Ending(Case):
    def under_load(self, broker, count=8):
        """Connections that write until theirs ends, and what each was answered."""
        found, connections = [[] for _ in range(count)], [broker.connect() for _ in range(count)]

        def work(number):
            with connections[number] as connection, contextlib.suppress(OSError):
                while True:
                    connection.sendall(line('transfer', number, 0, 1) * 20)
                    answers = read_lines(connection, 20)
                    found[number] += answers
                    if len(answers) < 20:
                        break
        threads = [threading.Thread(target=work, args=[number]) for number in range(count)]
        for thread in threads:
            thread.start()
        until = time.monotonic() + SECONDS
        while not all(found) and time.monotonic() < until:
            time.sleep(0.01)
        return threads, found

    def test_all_that_was_made_is_answered(self):
        for number in signal.SIGTERM, signal.SIGINT:
            with self.broker() as broker:
                threads, found = self.under_load(broker)
                os.killpg(broker.running.pid, number)
                status, last, said = broker.ended()
                for thread in threads:
                    thread.join(SECONDS)
            self.assertEqual((status, said), (0, ''))
            calls = sorted(json.loads(answer)['call'] for answers in found for answer in answers)
            self.assertEqual(calls, list(range(last['calls'])))
            self.assertGreater(last['calls'], 0)

    def test_what_waits_to_be_read_is_still_sent(self):
        """More than the socket holds waits in the broker when it is told to end."""
        count = 25000
        with self.broker() as broker, broker.connect() as connection, broker.connect() as other:
            connection.sendall(BALANCE * count)
            while ask(other, BALANCE)[0]['call'] < count:
                pass
            broker.running.send_signal(signal.SIGTERM)
            while broker.children():
                time.sleep(0.01)
            time.sleep(0.2)
            self.assertEqual(len(read_to_end(connection)), count)
            self.assertEqual(broker.ended()[0], 0)

    def test_one_that_does_not_read_does_not_stop_the_end(self):
        with self.broker() as broker, broker.connect() as connection:
            connection.sendall(BALANCE * 20000)
            time.sleep(0.5)
            began = time.monotonic()
            self.assertEqual(broker.end()[0], 0)
            self.assertLess(time.monotonic() - began, SECONDS / 2)

    def test_the_service_ends_early(self):
        dying = self.stand_in('sys.stdin.buffer.readline(); print(\'{"call":0,"committed":[]}\', flush=True)\n'
                              'os.read(0, 1); sys.exit(1)\n')
        with self.broker(program=dying) as broker, broker.connect() as connection:
            connection.settimeout(SECONDS)
            self.assertEqual(len(ask(connection, BALANCE)), 1)
            connection.sendall(BALANCE)
            self.assertEqual(read_to_end(connection), [])
            status, last, said = broker.ended()
        self.assertEqual((status, last), (1, None))
        self.assertIn('status 1', said)
        self.assertFalse(self.socket.exists())

    def test_a_scenario_that_is_refused(self):
        """It is explained, as the service does."""
        explained = self.refused()
        with self.broker() as broker:
            status, last, said = broker.ended()
        self.assertEqual((status, last), (1, None))
        self.assertEqual(said.count(explained), 1)


if __name__ == '__main__':
    unittest.main()
