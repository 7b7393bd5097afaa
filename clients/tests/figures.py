#!/usr/bin/env python3
"""Measures the clients and the broker while nothing else runs, and prints calls a second.

    python3 clients/tests/figures.py [--program PROGRAM] [--seconds N] [PART..]

The parts are python, node, broker and log; the calls are transfers over 65,536 records. `--program` is
crates/vll/out/vll without it. Beside the broker with a log, in turn with it, the same calls are made by a Redis server
that has each on the disk before it answers (`appendfsync always`), if there is one: version 7 or later.
"""
import argparse
import asyncio
import contextlib
import itertools
import json
import multiprocessing
import random
import shutil
import socket
import statistics
import subprocess
import sys
import tempfile
import threading
import time
from pathlib import Path

from common import BANK, PROGRAM, TOP, Broker, line
import vll

sys.path.append(str(TOP / 'tools/figures'))
from service import FUNCTIONS, LIBRARY

RECORDS, HELD, CLIENTS, ROUNDS = 65536, 1000, 64, 3
# Processes, connections of each, and calls in flight on each connection.
SHAPES = (1, 1, 1), (4, 16, 1), (4, 2, 100), (4, 16, 100)
NODE = '''
import { Aborted, Service } from '%s'
const [file, program, seconds] = process.argv.slice(1)
const bank = new Service(file, { program, inFlight: 1000 })
let count = 0
const until = performance.now() + seconds * 1000
const draw = limit => Math.floor(Math.random() * limit)
const work = async () => {
  while (performance.now() < until) {
    count += 1
    try {
      await bank.transfer(draw(65536), draw(65536), draw(100))
    } catch (error) {
      if (!(error instanceof Aborted)) throw error
    }
  }
}
await Promise.all(Array.from({ length: 1000 }, work))
await bank.close()
console.log(count / seconds)
'''


def transfer(draw):
    return draw.randrange(RECORDS), draw.randrange(RECORDS), draw.randrange(100)


def transfers(numbers):
    """For each number the same calls over and over, which were drawn before anything is measured."""
    return [itertools.cycle([transfer(draw) for _ in range(1000)]) for draw in map(random.Random, numbers)]


def by_threads(file, words, threads, ahead):
    """So many threads, each of which makes so many calls and then waits for them."""
    calls, counts = transfers(range(threads)), [0] * threads
    until = time.perf_counter() + words.seconds

    def work(number):
        while time.perf_counter() < until:
            futures = [bank.submit('transfer', *each, client=number)
                       for each in itertools.islice(calls[number], ahead)]
            for future in futures:
                future.exception()
            counts[number] += ahead
    with vll.Service(file, words.program) as bank:
        working = [threading.Thread(target=work, args=[number]) for number in range(threads)]
        for thread in working:
            thread.start()
        for thread in working:
            thread.join()
    return sum(counts) / words.seconds


def by_asyncio(file, words, tasks):
    calls, counts = transfers(range(tasks)), [0] * tasks

    async def work(bank, number, until):
        while time.perf_counter() < until:
            try:
                await bank.transfer(*next(calls[number]))
            except vll.Aborted:
                pass
            counts[number] += 1

    async def all_work():
        async with vll.AsyncService(file, words.program) as bank:
            until = time.perf_counter() + words.seconds
            await asyncio.gather(*[work(bank, number, until) for number in range(tasks)])
    asyncio.run(all_work())
    return sum(counts) / words.seconds


def by_node(file, words):
    script = NODE % (TOP / 'clients/node/vll.mjs').as_uri()
    command = ['node', '--input-type=module', '-e', script, str(file), str(words.program), str(words.seconds)]
    return float(subprocess.run(command, stdout=subprocess.PIPE, check=True).stdout)


def line_of_vll(number, call):
    return line('transfer', *call, client=number % CLIENTS)


def line_of_redis(_, call):
    return b'FCALL transfer 2 %d %d %d\r\n' % call


def texts_of(number, ahead, line_of):
    """What a connection writes at a time."""
    draw = random.Random(number)
    return [b''.join(line_of(number, transfer(draw)) for _ in range(ahead)) for _ in range(20)]


def write_and_read(connection, number, texts, ahead, until, counts):
    at = 0
    while time.perf_counter() < until:
        connection.sendall(texts[at % len(texts)])
        left, at = ahead, at + 1
        while left:
            left -= connection.recv(1 << 16).count(b'\n')
        counts[number] += ahead


def process(path, line_of, shape, first, seconds, ready, start, told):
    """One of the processes that call a broker or a Redis server."""
    _, count, ahead = shape
    numbers = range(first, first + count)
    connections = {number: (connect(path), number, texts_of(number, ahead, line_of)) for number in numbers}
    counts = dict.fromkeys(numbers, 0)
    ready.release()
    start.wait()
    until = time.perf_counter() + seconds
    working = [threading.Thread(target=write_and_read, args=[*connections[number], ahead, until, counts])
               for number in numbers]
    for thread in working:
        thread.start()
    for thread in working:
        thread.join()
    told.put(sum(counts.values()) / seconds)


def connect(path):
    connection = socket.socket(socket.AF_UNIX)
    connection.connect(path)
    return connection


def by_processes(path, line_of, shape, seconds):
    """The calls a second that these processes make, which begin together."""
    told, start, ready = multiprocessing.Queue(), multiprocessing.Event(), multiprocessing.Semaphore(0)
    processes = [multiprocessing.Process(target=process, args=(
        path, line_of, shape, number * shape[1], seconds, ready, start, told)) for number in range(shape[0])]
    for each in processes:
        each.start()
    for _ in processes:
        ready.acquire()
    start.set()
    found = sum(told.get() for _ in processes)
    for each in processes:
        each.join()
    return found


def by_broker(file, words, shape, room, with_log):
    log = room / 'log'
    if log.exists():
        log.unlink()
    more = ['--log', str(log)] if with_log else []
    with Broker(room / 'socket', file, *more, program=words.program) as broker:
        broker.connect().close()
        found = by_processes(broker.path, line_of_vll, shape, words.seconds)
        status, _, said = broker.end()
        if status:
            raise RuntimeError(said)
    return found


@contextlib.contextmanager
def redis_at_work(room):
    """A Redis server with the records and the procedure, which has each call on the disk before it answers."""
    path = str(room / 'redis')
    words = ['--port', '0', '--unixsocket', path, '--dir', room, '--save', '', '--appendonly', 'yes',
             '--appendfsync', 'always', '--auto-aof-rewrite-percentage', '0']
    with subprocess.Popen(['redis-server', *words], stdout=subprocess.DEVNULL) as running:
        while not Path(path).exists():
            time.sleep(0.01)
        function = LIBRARY.format(FUNCTIONS['two commands']).encode()
        with connect(path) as connection:
            held = b''.join(b'SET %d %d\r\n' % (record, HELD) for record in range(RECORDS))
            connection.sendall(b'*3\r\n$8\r\nFUNCTION\r\n$4\r\nLOAD\r\n$%d\r\n%b\r\n%b' % (
                len(function), function, held))
            left = RECORDS + 2
            while left > 0:
                left -= connection.recv(1 << 16).count(b'\n')
        yield path
        running.terminate()


def by_redis(words, shape, room):
    with tempfile.TemporaryDirectory(dir=room) as name, redis_at_work(Path(name)) as path:
        return by_processes(path, line_of_redis, shape, words.seconds)


def show(what, measure):
    found = sorted(measure() for _ in range(ROUNDS))
    print(f'{what:50} {statistics.median(found):>10,.0f}  ({found[0]:,.0f} to {found[-1]:,.0f})', flush=True)


def main():
    parser = argparse.ArgumentParser(description='Measures the clients and the broker.')
    parser.add_argument('parts', nargs='*', metavar='PART', default=['python', 'node', 'broker', 'log'])
    parser.add_argument('--program', type=Path, default=PROGRAM)
    parser.add_argument('--seconds', type=float, default=2)
    words = parser.parse_args()
    words.program = words.program.resolve()
    with tempfile.TemporaryDirectory() as name:
        room = Path(name)
        file = room / 'bank.json'
        scenario = json.loads(BANK.read_text())
        scenario.update(records=[HELD] * RECORDS, clients=[[]] * CLIENTS)
        file.write_text(json.dumps(scenario))
        if 'python' in words.parts:
            for threads, ahead in (1, 1), (64, 1), (1, 1000), (64, 15):
                show(f'python, {threads} threads, {ahead} in flight each',
                     lambda: by_threads(file, words, threads, ahead))
            for tasks in 1, 64, 1000:
                show(f'asyncio, {tasks} tasks', lambda: by_asyncio(file, words, tasks))
        if 'node' in words.parts:
            show('node, 1,000 in flight', lambda: by_node(file, words))
        for part in 'broker', 'log':
            for shape in SHAPES if part in words.parts else ():
                how = f'{shape[0] * shape[1]} connections, {shape[2]} in flight each'
                show(f'{part}, {how}', lambda: by_broker(file, words, shape, room, part == 'log'))
                if part == 'log' and shutil.which('redis-server'):
                    show(f'Redis, {how}', lambda: by_redis(words, shape, room))


if __name__ == '__main__':
    main()
