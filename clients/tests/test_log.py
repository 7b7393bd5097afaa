"""The broker's log: kill -9, torn lines, full disks, snapshots.

    python3 clients/tests/test_log.py [--long] [TEST..]

With --long the broker is killed 200 times, and not 20, and a broker takes over each torn log, and not four of them.
"""
import contextlib
import json
import os
import random
import resource
import socket
import subprocess
import sys
import threading
import time
import unittest
from unittest import mock

from common import ACCOUNTS, BANK, BROKER, CLIENTS, SECONDS, Broker, Case, ask, line, read_lines, served
import broker as broker_module

LONG = '--long' in sys.argv
KILLS = 200 if LONG else 20
CUTS = range(1, 201) if LONG else (1, 2, 77, 200)
# After so many kills a log begins anew: all of it is replayed each time.
KILLS_OF_A_LOG = 10
# What a broker says whose log was refused, is in use, or cannot be written.
FOREIGN, IN_USE, UNWRITABLE = 'is no log of calls for this', 'another broker has the log', 'cannot be written'


def transfers(seed, count):
    draw = random.Random(seed)
    for number in range(count):
        yield line('transfer', draw.randrange(ACCOUNTS), draw.randrange(ACCOUNTS), draw.randrange(60),
                   client=draw.randrange(CLIENTS), id=f'{seed} {number}')


class Logged(Case):
    def entries(self):
        """The lines of the log but for its first, and as far as they are whole."""
        lines = self.log.read_bytes().splitlines(keepends=True)
        return [each for each in lines[1:] if each.endswith(b'\n')]

    def replayed(self):
        """What the log's calls answer and leave."""
        return served(self.file, b''.join(self.entries()))

    def made(self, count=50):
        """A log of so many calls, and their answers."""
        with self.logged() as broker, broker.connect() as connection:
            answers = ask(connection, *transfers(1, count))
            status, last, _ = broker.end()
        self.assertEqual(status, 0)
        return answers, last


class Killed(Logged):
    def load(self, broker, seed, found):
        """Writes calls, some at a time, until the connection ends; keeps what is answered."""
        connection = broker.connect()
        if not connection:
            return
        lines = list(transfers(seed, 4000))
        size = 1 + seed % 8 * 3
        with connection, contextlib.suppress(OSError):
            for at in range(0, len(lines), size):
                part = lines[at:at + size]
                connection.sendall(b''.join(part))
                answers = read_lines(connection, len(part))
                found += answers
                if len(answers) < len(part):
                    break

    def kill_under_load(self, draw, seed):
        """The answers that came before the broker was killed."""
        found = []
        with self.logged() as broker:
            threads = [threading.Thread(target=self.load, args=[broker, seed * 8 + number, found])
                       for number in range(8)]
            for thread in threads:
                thread.start()
            if draw.random() < 0.8:
                until = time.monotonic() + SECONDS
                while not found and broker.running.poll() is None and time.monotonic() < until:
                    time.sleep(0.001)
            time.sleep(draw.random() * 0.2)
            broker.kill()
            for thread in threads:
                thread.join(SECONDS)
        return found

    def test_each_answer_outlives_kill_9(self):
        """Each answered call is in the log, at the same place and with the same reply."""
        draw, seen, total = random.Random(5), set(), 0
        for number in range(KILLS):
            if number % KILLS_OF_A_LOG == 0:
                with contextlib.suppress(FileNotFoundError):
                    self.log.unlink()
                seen = set()
            found = [answer for answer in self.kill_under_load(draw, number) if answer.endswith(b'}')]
            seen.update(found)
            total += len(found)
            if self.log.exists():
                answers, _ = self.replayed()
                self.assertEqual(seen - set(answers), set(), f'lost after kill {number}')
        with self.logged() as broker, broker.connect() as connection:
            answers = ask(connection, *[line('balance', at) for at in range(ACCOUNTS)])
            balances = [answer['committed'][0] for answer in answers]
            status, last, _ = broker.end()
        _, replayed = self.replayed()
        self.assertEqual((status, last, balances), (0, replayed, replayed['records']))
        print(f'{total:,} answers before {KILLS} kills, none lost', end=' ', file=sys.stderr, flush=True)
        self.assertGreater(total, KILLS * 10)


class Torn(Logged):
    def test_cut_at_each_of_the_last_bytes(self):
        """What is left is each line that is whole; the next line comes behind it."""
        self.made()
        whole = self.log.read_bytes()
        for cut in range(1, 201):
            text = whole[:-cut]
            self.log.write_bytes(text)
            log = broker_module.Log(str(self.log), broker_module.Scenario(str(self.file)))
            try:
                # a line may begin in one piece and end in another
                with mock.patch.object(broker_module, 'PIECE', 50 + cut):
                    kept = b''.join(log.lines())
                log.append(b'next\n')
            finally:
                os.close(log.file)
                os.close(log.locked)
            lines = text[:text.rindex(b'\n') + 1]
            self.assertEqual(kept, lines[lines.index(b'\n') + 1:])
            self.assertEqual(self.log.read_bytes(), lines + b'next\n')

    def test_a_broker_over_a_torn_log(self):
        answers, _ = self.made()
        whole = self.log.read_bytes()
        for cut in CUTS:
            self.log.write_bytes(whole[:-cut])
            count = whole[:-cut].count(b'\n') - 1
            with self.logged() as broker, broker.connect() as connection:
                [answer] = ask(connection, line('balance', 0))
                self.assertEqual(answer['call'], count)
                self.assertEqual(broker.end()[0], 0)
            found, _ = self.replayed()
            self.assertEqual([json.loads(each) for each in found[:-1]], answers[:count])
            self.assertEqual(json.loads(found[-1]), answer)


class Disk(Logged):
    def test_an_answer_waits_for_the_disk(self):
        """While fdatasync does not return no call is made; then all that came meanwhile is on the disk by one more."""
        with self.logged(command=[self.slow()]) as broker, broker.connect() as connection:
            lines = list(transfers(1, 20))
            for each in lines:
                connection.sendall(each)
                time.sleep(0.02)
            connection.settimeout(0.5)
            with self.assertRaises(OSError):
                connection.recv(1)
            connection.settimeout(SECONDS)
            self.gate.touch()
            self.assertEqual(len(read_lines(connection, 20)), 20)
            self.assertEqual(broker.end()[0], 0)
        self.assertEqual(self.entries(), lines)
        self.assertLess(self.syncs(), 10)

    def test_answers_of_lost_connections_go_to_nobody(self):
        """Lines whose connection is lost while the disk is busy are made, and their answers dropped."""
        with self.logged(command=[self.slow()]) as broker, broker.connect() as other:
            self.gate.touch()
            with broker.connect() as lost:
                lost.sendall(line('balance', 0))
                self.assertEqual(lost.recv(1, socket.MSG_PEEK), b'{')
                self.gate.unlink()
                lost.sendall(line('balance', 0, id='lost') * 3)
                while self.syncs() < 2:
                    time.sleep(0.01)
                # it has an answer that it has not read, so the broker sees at once that it is gone
                broker.without(lost)
            other.sendall(line('balance', 1, id='own'))
            self.gate.touch()
            [answer] = read_lines(other, 1)
            self.assertEqual(json.loads(answer)['id'], 'own')
            self.assertEqual(broker.end()[1]['calls'], 5)

    def slow(self):
        """A broker whose fdatasync waits for the file `gate`; `syncs` counts its calls."""
        self.gate, self.count = self.room / 'gate', self.room / 'count'
        return str(self.stand_in(f'''
import runpy
sync = os.fdatasync
def wait(file):
    open({str(self.count)!r}, 'a').write('x')
    while not os.path.exists({str(self.gate)!r}): time.sleep(0.01)
    sync(file)
os.fdatasync = wait
sys.argv[0] = {str(BROKER)!r}
runpy.run_path(sys.argv[0], run_name='__main__')
'''))

    def syncs(self):
        return len(self.count.read_text()) if self.count.exists() else 0

    def test_a_full_disk(self):
        disk = self.room / 'disk'
        disk.mkdir()
        mount = ['mount', '-t', 'tmpfs', '-o', 'size=256k', 'tmpfs', str(disk)]
        if subprocess.run(mount, stderr=subprocess.DEVNULL).returncode:
            self.skipTest('nothing can be mounted here')
        try:
            self.log = disk / 'log'
            self.fill(self.logged('--snapshot'))
        finally:
            subprocess.run(['umount', str(disk)], check=True)

    def test_a_file_that_may_not_grow(self):
        limit = 100000
        limited = {'preexec_fn': lambda: resource.setrlimit(resource.RLIMIT_FSIZE, (limit, limit))}
        self.fill(self.logged('--snapshot', **limited))
        self.assertLessEqual(self.log.stat().st_size, limit)
        with self.logged() as broker, broker.connect() as connection:
            self.assertEqual(ask(connection, line('balance', 0))[0]['call'], len(self.entries()) - 1)
            self.assertEqual(broker.end()[0], 0)

    def fill(self, broker):
        """Calls until the disk is full: each answer is of a call in the log, and the broker ends and says why.

        It takes no snapshot then.
        """
        found, before = [], self.file.read_bytes()
        with broker.connect() as connection, contextlib.suppress(OSError):
            for at in range(1000):
                lines = list(transfers(at, 100))
                connection.sendall(b''.join(lines))
                answers = read_lines(connection, len(lines))
                found += answers
                if len(answers) < len(lines):
                    break
        status, last, said = broker.ended()
        self.assertEqual(status, 1)
        self.assertIn(UNWRITABLE, said)
        self.assertEqual(self.file.read_bytes(), before)
        answers, replayed = self.replayed()
        self.assertEqual(found, answers)
        self.assertEqual(last, replayed)
        self.assertGreater(len(found), 0)


class Snapshots(Logged):
    def balances(self):
        with self.logged() as broker, broker.connect() as connection:
            answers = ask(connection, *[line('balance', at) for at in range(ACCOUNTS)])
            self.assertEqual(broker.end()[0], 0)
        return [answer['committed'][0] for answer in answers]

    def test_a_snapshot_has_the_records_and_the_log_begins_anew(self):
        for _ in range(3):
            with self.logged('--snapshot') as broker, broker.connect() as connection:
                self.assertEqual(ask(connection, *transfers(3, 40))[0]['call'], 0)
                status, last, _ = broker.end()
            self.assertEqual((status, self.entries()), (0, []))
            scenario = json.loads(self.file.read_text())
            self.assertEqual(scenario['records'], last['records'])
            self.assertEqual(scenario['procs'], json.loads(BANK.read_text())['procs'])
        self.assertEqual(self.balances(), last['records'])

    def test_no_snapshot_after_an_end_that_is_not_clean(self):
        before = self.file.read_bytes()
        with self.logged('--snapshot') as broker, broker.connect() as connection:
            ask(connection, *transfers(3, 40))
            broker.kill()
        self.assertEqual(self.file.read_bytes(), before)
        self.assertEqual(len(self.entries()), 40)

    def test_a_crash_at_each_step(self):
        """After each system call of a snapshot: the same records, from the old files or from the new ones."""
        _, last = self.made()
        files = {path: path.read_bytes() for path in (self.file, self.log)}
        steps = 0
        while True:
            for path in self.room.iterdir():
                path.unlink()
            for path, text in files.items():
                path.write_bytes(text)
            if self.finishes(steps, last['records']):
                break
            self.assertEqual(self.state(), last['records'], f'after {steps} steps')
            steps += 1
        self.assertGreater(steps, 8)
        self.assertEqual(self.state(), last['records'])
        self.assertEqual(self.balances(), last['records'])

    def state(self):
        """The records that a broker would find, by its own way into the files."""
        log = broker_module.Log(str(self.log), broker_module.Scenario(str(self.file)))
        try:
            return served(self.file, b''.join(log.lines()))[1]['records']
        finally:
            os.close(log.file)
            os.close(log.locked)

    def finishes(self, steps, records):
        """Takes a snapshot; whether it is finished after so many system calls."""
        scenario = broker_module.Scenario(str(self.file))
        log = broker_module.Log(str(self.log), scenario)
        left = [steps]

        class Crash(BaseException):
            """No handler of the broker's runs."""

        def counted(call):
            def counting(*words, **named):
                if left[0] == 0:
                    raise Crash
                left[0] -= 1
                return call(*words, **named)
            return counting
        try:
            with contextlib.ExitStack() as stack:
                for name in 'open', 'write', 'fsync', 'replace':
                    stack.enter_context(mock.patch.object(os, name, counted(getattr(os, name))))
                scenario.take_snapshot(records, log)
            return True
        except Crash:
            return False
        finally:
            os.close(log.file)
            os.close(log.locked)

    def test_a_log_of_another_scenario_is_never_replayed(self):
        self.made()
        before = self.log.read_bytes()
        self.file.write_text(self.file.read_text().replace('100', '101'))
        for text in before, b'', b'no log\n', before.splitlines()[1] + b'\n', before[:50]:
            self.log.write_bytes(text)
            with self.logged() as broker:
                status, last, said = broker.ended()
            self.assertEqual((status, last), (2, None))
            self.assertIn(FOREIGN, said)
            self.assertEqual(self.log.read_bytes(), text)

    def test_two_brokers_do_not_share_a_log(self):
        with self.logged() as broker, broker.connect() as connection:
            ask(connection, *transfers(1, 3))
            with Broker(self.room / 'other', self.file, '--log', str(self.log)) as other:
                status, _, said = other.ended()
            self.assertEqual(status, 2)
            self.assertIn(IN_USE, said)
            self.assertEqual(broker.end()[0], 0)


class Ending(Logged):
    def test_all_that_was_read_is_logged_made_and_answered(self):
        """A signal while the disk is busy: no line that was read is dropped."""
        for number in range(3):
            found = []
            with self.logged() as broker:
                connections = [broker.connect() for _ in range(8)]
                count = len(self.entries())

                def work(connection, seed):
                    with connection, contextlib.suppress(OSError):
                        for each in transfers(seed, 100000):
                            connection.sendall(each)
                            answers = read_lines(connection, 1)
                            found.extend(answers)
                            if not answers:
                                break
                threads = [threading.Thread(target=work, args=[connection, number * 8 + at])
                           for at, connection in enumerate(connections)]
                for thread in threads:
                    thread.start()
                while len(found) < 100:
                    time.sleep(0.01)
                status, last, _ = broker.end()
                for thread in threads:
                    thread.join(SECONDS)
            self.assertEqual(status, 0)
            self.assertEqual(sorted(json.loads(each)['call'] for each in found), list(range(count, last['calls'])))
            self.assertEqual(self.replayed()[1], last)


if __name__ == '__main__':
    unittest.main(argv=[word for word in sys.argv if word != '--long'])
