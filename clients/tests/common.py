"""What the tests of the clients share: the program, the bank, brokers, and a model of the bank.

The program is crates/vll/out/vll, or what the environment variable VLL_PROGRAM names.
"""
import contextlib
import faulthandler
import json
import os
import signal
import socket
import subprocess
import sys
import tempfile
import time
import unittest
from pathlib import Path

TOP = Path(__file__).resolve().parents[2]
PROGRAM = Path(os.environ.get('VLL_PROGRAM', TOP / 'crates/vll/out/vll')).resolve()
BROKER = TOP / 'clients/broker.py'
BANK = TOP / 'examples/serve/bank.json'
ACCOUNTS, CLIENTS, HELD = 8, 10, 100
# What waits for longer than this has failed, and what all tests of a file may take.
SECONDS, ALL_SECONDS = 120, 1800

# In the environment of a process it finds the client.
CLIENT_PATH = {**os.environ, 'PYTHONPATH': str(TOP / 'clients/python')}
sys.path[:0] = [str(TOP / 'clients/python'), str(TOP / 'clients')]
faulthandler.dump_traceback_later(ALL_SECONDS, exit=True)


class Case(unittest.TestCase):
    """A test with a folder of its own, in which bank.json is the bank."""

    def setUp(self):
        room = tempfile.TemporaryDirectory()
        self.addCleanup(room.cleanup)
        self.room = Path(room.name)
        self.file = self.room / 'bank.json'
        self.file.write_bytes(BANK.read_bytes())
        self.socket, self.log = self.room / 'socket', self.room / 'log'

    def refused(self):
        """Has the bank's file refused, and returns what `vll explain` prints of it."""
        bank = json.loads(BANK.read_text())
        for proc in bank['procs']:
            proc['body'] = [['reply', ['key', len(proc['keys'])]]]
        self.file.write_text(json.dumps(bank))
        ran = subprocess.run([PROGRAM, 'explain', self.file], stdout=subprocess.PIPE, timeout=SECONDS, check=False)
        self.assertEqual(ran.returncode, 2)
        self.assertRegex(ran.stdout, rb'\Avll: scenario: check 0 5\nat: .+\nwhy: .+\n\Z')
        return ran.stdout.decode()

    def stand_in(self, text):
        """A program in place of vll, of this Python."""
        path = self.room / 'stand_in'
        path.write_text(f'#!{sys.executable}\nimport os, sys, time\n{text}')
        path.chmod(0o755)
        return path

    def broker(self, *words, **how):
        return Broker(self.socket, self.file, *words, **how)

    def logged(self, *words, **how):
        return self.broker('--log', str(self.log), *words, **how)


class Broker:
    """A broker at work, which is killed with its service if a test leaves it at work."""

    def __init__(self, path, file, *words, program=PROGRAM, command=(sys.executable, str(BROKER)), **how):
        self.path = str(path)
        self.running = subprocess.Popen([*command, self.path, str(file), '--program', str(program), *words],
                                        stdout=subprocess.PIPE, stderr=subprocess.PIPE, start_new_session=True, **how)

    def __enter__(self):
        return self

    def __exit__(self, *_):
        self.kill()

    def connect(self):
        """A connection, once the broker listens; None if it has ended."""
        until = time.monotonic() + SECONDS
        while time.monotonic() < until and self.running.poll() is None:
            connection = socket.socket(socket.AF_UNIX)
            connection.settimeout(SECONDS)
            try:
                connection.connect(self.path)
                return connection
            except OSError:
                connection.close()
                time.sleep(0.01)
        return None

    def kill(self):
        """kill -9."""
        if self.running.poll() is None:
            self.running.kill()
        self.running.communicate()

    def children(self):
        """The processes that it has started and not seen end."""
        with contextlib.suppress(FileNotFoundError):
            return Path(f'/proc/{self.running.pid}/task/{self.running.pid}/children').read_text().split()
        return []

    def files(self):
        """How many files and connections it has open."""
        return len(os.listdir(f'/proc/{self.running.pid}/fd'))

    def without(self, connection):
        """Closes a connection, and waits until the broker has done so too."""
        wanted, until = self.files() - 1, time.monotonic() + SECONDS
        connection.close()
        while self.files() > wanted and time.monotonic() < until:
            time.sleep(0.01)

    def ended(self):
        """Waits for its end: the status, the last line if there is one, and what it said."""
        out, said = self.running.communicate(timeout=SECONDS)
        return self.running.returncode, json.loads(out) if out else None, said.decode()

    def end(self, number=signal.SIGTERM):
        self.running.send_signal(number)
        return self.ended()


class Model:
    """The bank, as bank.json has it."""

    def __init__(self, records=(HELD,) * ACCOUNTS):
        self.records, self.calls = list(records), 0

    def call(self, proc, *args):
        """The members of the answer."""
        number, self.calls = self.calls, self.calls + 1
        if proc == 'balance':
            return {'call': number, 'committed': [self.records[args[0]]]}
        source, target, amount = args
        if self.records[source] < amount:
            return {'call': number, 'aborted': 1}
        self.records[source] -= amount
        self.records[target] += amount
        return {'call': number, 'committed': [self.records[source]]}


def line(proc, *args, client=0, **more):
    asked = {**more, 'client': client, 'proc': proc, 'args': args}
    return json.dumps(asked, separators=(',', ':')).encode() + b'\n'


def read_lines(connection, count):
    """So many lines, or as many as come before the end."""
    found = b''
    while found.count(b'\n') < count:
        piece = connection.recv(1 << 16)
        if not piece:
            break
        found += piece
    return found.splitlines()


def read_to_end(connection):
    found = []
    with contextlib.suppress(ConnectionError):
        while True:
            piece = connection.recv(1 << 16)
            if not piece:
                break
            found.append(piece)
    return b''.join(found).splitlines()


def ask(connection, *lines):
    """The answers to these lines."""
    connection.sendall(b''.join(lines))
    return [json.loads(answer) for answer in read_lines(connection, len(lines))]


def served(file, lines, program=PROGRAM):
    """What a service of its own answers to these lines, and its last line."""
    ran = subprocess.run([str(program), 'serve', str(file)], input=lines, stdout=subprocess.PIPE, timeout=SECONDS,
                         check=True)
    *answers, last = ran.stdout.splitlines()
    return answers, json.loads(last)
