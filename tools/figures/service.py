#!/usr/bin/env python3
"""Measures `vll serve` while nothing else runs, beside a Redis server where there is one, and prints the figures.

    python3 tools/figures/service.py [--program PROGRAM] [--calls N] [--many N]

The calls are transfers over 65,536 records by four clients. What is measured:

- calls from a file, in nanoseconds a line
- calls a second with 1,000 in flight, the server's processor time for each, and with one in flight the time from a
  call to its answer: of `vll serve` through two pipes, and of Redis through a unix socket. They take turns, one client
  writes the same calls to both and reads what they answer, and each answer is compared with a model's
- the memory that `vll serve` takes for many calls, after the first tenth of them and at the end

In Redis a transfer is a function in Lua, which is tried in two forms, and nothing goes to disk. That needs redis-server
7 or later; without it a line says so.
"""
import argparse
import contextlib
import json
import os
import random
import socket
import statistics
import subprocess
import tempfile
import time
from pathlib import Path

TOP = Path(__file__).resolve().parents[2]
RECORDS, HELD, CLIENTS = 65536, 1000, 4
# The most calls that lack an answer, how many are written at a time, and how many are made one by one.
IN_FLIGHT, BLOCK, ONE_BY_ONE = 1000, 250, 20000
ROUNDS = 5
TRANSFER = json.loads((TOP / 'examples/serve/bank.json').read_text())['procs'][0]
# The same as functions of Redis: like the procedure, and with fewest commands, the first of them undone if it aborts.
FUNCTIONS = {'three commands': '''
  if tonumber(redis.call('GET', keys[1])) < tonumber(args[1]) then
    return redis.error_reply('ABORTED 1')
  end
  redis.call('INCRBY', keys[2], args[1])
  return redis.call('DECRBY', keys[1], args[1])
''', 'two commands': '''
  local left = redis.call('DECRBY', keys[1], args[1])
  if left < 0 then
    redis.call('INCRBY', keys[1], args[1])
    return redis.error_reply('ABORTED 1')
  end
  redis.call('INCRBY', keys[2], args[1])
  return left
'''}
LIBRARY = "#!lua name=bank\nredis.register_function('transfer', function(keys, args){}end)\n"


class Lacking(Exception):
    """Why nothing can be measured of Redis."""


def transfers(count):
    """Calls: from which record to which other one, and how much."""
    draw = random.Random(count)
    for _ in range(count):
        source = draw.randrange(RECORDS)
        yield source, (source + draw.randrange(1, RECORDS)) % RECORDS, draw.randrange(100)


def left_by(calls):
    """What each call leaves in its source, or None if it aborts."""
    held = [HELD] * RECORDS
    for source, target, amount in calls:
        if held[source] < amount:
            yield None
        else:
            held[source] -= amount
            held[target] += amount
            yield held[source]


class Service:
    """`vll serve` over two pipes."""

    name = 'vll serve'

    def __init__(self, program, room):
        scenario = {'version': 1, 'records': [HELD] * RECORDS, 'procs': [TRANSFER], 'clients': [[]] * CLIENTS}
        file = room / 'scenario.json'
        file.write_text(json.dumps(scenario))
        self.command = [program.resolve(), 'serve', file]

    @contextlib.contextmanager
    def at_work(self):
        """Where the server is written to and read from, and its process, once it has made a call that moves nothing."""
        with subprocess.Popen(self.command, stdin=subprocess.PIPE, stdout=subprocess.PIPE) as running:
            to, back = running.stdin.fileno(), running.stdout.fileno()
            os.write(to, self.text(0, (0, 1, 0)))
            answers(back)
            yield to, back, running.pid
            running.stdin.close()
            running.stdout.read()

    @staticmethod
    def text(number, call):
        asked = {'client': number % CLIENTS, 'proc': 'transfer', 'args': call}
        return json.dumps(asked, separators=(',', ':')).encode() + b'\n'

    @staticmethod
    def left(answer):
        told = json.loads(answer)
        return None if told.get('aborted') == 1 else told['committed'][0]


class Redis:
    """A Redis server over a unix socket, with one of these functions."""

    def __init__(self, which, room):
        self.name = f'Redis, {which}'
        self.function = LIBRARY.format(FUNCTIONS[which])
        self.room = room

    @contextlib.contextmanager
    def at_work(self):
        """As in `Service`."""
        path = str(self.room / 'redis')
        words = ['--port', '0', '--unixsocket', path, '--dir', self.room, '--save', '', '--appendonly', 'no']
        try:
            running = subprocess.Popen(['redis-server', *words], stdout=subprocess.DEVNULL)
        except OSError as why:
            raise Lacking(why) from why
        try:
            with socket.socket(socket.AF_UNIX) as connection:
                self.connect(connection, path)
                self.ask(connection, self.command('FUNCTION', 'LOAD', self.function), b'$4\r\nbank\r\n')
                held = [word for record in range(RECORDS) for word in (record, HELD)]
                self.ask(connection, self.command('MSET', *held), b'+OK\r\n')
                yield connection.fileno(), connection.fileno(), running.pid
        finally:
            running.terminate()
            running.wait()

    @staticmethod
    def connect(connection, path):
        for _ in range(200):
            try:
                return connection.connect(path)
            except (FileNotFoundError, ConnectionRefusedError):
                time.sleep(0.05)
        raise Lacking('redis-server does not start')

    @staticmethod
    def ask(connection, command, wanted):
        connection.sendall(command)
        found = connection.recv(4096)
        if found != wanted:
            raise Lacking(f'redis-server answers {found.decode().strip()}')

    @staticmethod
    def command(*words):
        """A command as it is written to the server."""
        words = [str(word).encode() for word in words]
        return b'*%d\r\n' % len(words) + b''.join(b'$%d\r\n%b\r\n' % (len(word), word) for word in words)

    def text(self, _, call):
        source, target, amount = call
        return self.command('FCALL', 'transfer', 2, source, target, amount)

    @staticmethod
    def left(answer):
        return None if answer == b'-ABORTED 1\r' else int(answer[1:])


def answers(back):
    """What has been answered."""
    found = os.read(back, 1 << 16)
    if not found:
        raise EOFError('the server has ended')
    return found


def ahead(to, back, blocks):
    """Writes the calls, of which IN_FLIGHT at most lack an answer, and gives what is answered, piece by piece."""
    in_flight = 0
    for number, (text, count) in enumerate(blocks, start=1):
        os.write(to, text)
        in_flight += count
        while in_flight > (IN_FLIGHT - BLOCK if number < len(blocks) else 0):
            found = answers(back)
            in_flight -= found.count(b'\n')
            yield found


def texts_of(server, calls):
    return [server.text(number, call) for number, call in enumerate(calls)]


def blocks_of(server, calls):
    """What is written at a time, and how many calls that is."""
    texts = texts_of(server, calls)
    parts = [texts[at:at + BLOCK] for at in range(0, len(texts), BLOCK)]
    return [(b''.join(part), len(part)) for part in parts]


def judge(server, calls, found):
    """Compares the answers with the model's."""
    left = [server.left(answer) for answer in b''.join(found).split(b'\n')[:-1]]
    if left != list(left_by(calls)):
        raise ValueError(f'{server.name} answers otherwise than the model')


def worked(number):
    """The seconds that a process has had a processor."""
    user, system = Path(f'/proc/{number}/stat').read_text().rpartition(')')[2].split()[11:13]
    return (int(user) + int(system)) / os.sysconf('SC_CLK_TCK')


def many_in_flight(server, calls):
    """Calls a second, and the microseconds of a processor that the server takes for each."""
    blocks = blocks_of(server, calls)
    with server.at_work() as (to, back, number):
        before, began = worked(number), time.perf_counter()
        found = list(ahead(to, back, blocks))
        took, work = time.perf_counter() - began, worked(number) - before
    judge(server, calls, found)
    return len(calls) / took, work / len(calls) * 1e6


def one_in_flight(server, calls):
    """Microseconds from each call to its answer."""
    texts, took, found = texts_of(server, calls), [], []
    with server.at_work() as (to, back, _):
        for text in texts:
            began = time.perf_counter_ns()
            os.write(to, text)
            found.append(answers(back))
            took.append((time.perf_counter_ns() - began) / 1000)
    judge(server, calls, found)
    return took


def from_a_file(service, calls, room):
    """Nanoseconds a line, the median of some runs."""
    path = room / 'lines'
    path.write_bytes(b''.join(texts_of(service, calls)))
    took = []
    for _ in range(ROUNDS):
        with path.open() as text:
            began = time.perf_counter_ns()
            subprocess.run(service.command, stdin=text, stdout=subprocess.DEVNULL, check=True)
        took.append((time.perf_counter_ns() - began) / len(calls))
    return statistics.median(took)


def memory(service, calls, times):
    """The most MB that it took by the end of each of these times, and the calls a second."""
    blocks, most = blocks_of(service, calls), []
    with service.at_work() as (to, back, number):
        began = time.perf_counter()
        for _ in range(times):
            for _ in ahead(to, back, blocks):
                pass
            status = Path(f'/proc/{number}/status').read_text()
            most.append(int(status.partition('VmHWM:')[2].split()[0]) * 1024 / 1e6)
        took = time.perf_counter() - began
    return most, len(calls) * times / took


def beside(room):
    """The servers that are measured beside the service."""
    servers = [Redis(which, room) for which in FUNCTIONS]
    try:
        for server in servers:
            with server.at_work():
                pass
    except Lacking as why:
        print(f'nothing is measured beside it: {why}')
        return []
    return servers


def compared(servers, calls):
    """Measures the servers in turn. Says of each what it takes, and how many times as many calls the first one makes:
    the median of what that is in each round."""
    many, one = {server: [] for server in servers}, {server: [] for server in servers}
    for _ in range(ROUNDS):
        for server in servers:
            many[server].append(many_in_flight(server, calls))
            one[server] += one_in_flight(server, calls[:ONE_BY_ONE // ROUNDS])
    first = servers[0]
    for server in servers:
        rates, works = zip(*many[server])
        took = sorted(one[server])
        most = took[len(took) * 99 // 100]
        yield (f'{server.name}: {statistics.median(rates):,.0f} calls a second with {IN_FLIGHT:,} in flight '
               f'({min(rates):,.0f} to {max(rates):,.0f}), each {statistics.median(works):.2f} us of a processor; '
               f'with one in flight {statistics.median(took):.1f} us, 99 of 100 below {most:.1f} us')
        if server is not first:
            ratio = statistics.median(rate / other for (rate, _), other in zip(many[first], rates))
            yield f'{first.name} makes {ratio:.2f} times as many'


def main():
    parser = argparse.ArgumentParser(description='Measures vll serve.')
    parser.add_argument('--program', type=Path, default=TOP / 'crates/vll/out/vll')
    parser.add_argument('--calls', type=int, default=400000)
    parser.add_argument('--many', type=int, default=10000000, help='how many calls take memory')
    words = parser.parse_args()
    calls = list(transfers(words.calls))
    with tempfile.TemporaryDirectory() as folder:
        room = Path(folder)
        service = Service(words.program, room)
        print(f'{words.calls:,} calls from a file: {from_a_file(service, calls, room):,.0f} ns a line', flush=True)
        for line in compared([service, *beside(room)], calls):
            print(line, flush=True)
        most, rate = memory(service, list(transfers(words.many // 10)), 10)
        print(f'{words.many:,} calls: at most {most[0]:.1f} MB up to the first tenth, {most[-1]:.1f} MB up to the end; '
              f'{rate:,.0f} calls a second')


if __name__ == '__main__':
    main()
