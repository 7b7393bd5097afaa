#!/usr/bin/env python3
"""Lets any number of processes share one `vll serve` over a unix socket, and keeps a log of their calls.

    clients/broker.py SOCKET FILE [--program PATH] [--log LOG] [--snapshot]

A connection writes lines and reads their answers, as docs/SERVICE.md has them. With --log all lines are on the disk
before their calls are made, and at the start those of the log are made anew. SIGTERM and SIGINT end it: what was read
is answered, and the last line comes on standard output. With --snapshot the records then take the place of those in
FILE, and the log begins anew.

It needs Linux and Python 3.8 or later. The status is 0 after such an end, 2 if it was not started, else 1.
"""
import argparse
import asyncio
import errno
import fcntl
import hashlib
import json
import os
import resource
import shutil
import signal
import socket
import stat
import subprocess
import sys
import time
from collections import deque
from pathlib import Path
from typing import Any, Deque, Iterator, List, Optional, Set, Tuple

# The longest line that the service reads, and the longest scenario.
LONGEST, LONGEST_SCENARIO = 1 << 16, 1 << 24
# A connection that leaves so many bytes of answers unread is cut off. While so many bytes of lines wait for the service
# no more are read.
MOST_UNREAD, MOST_UNWRITTEN = 1 << 20, 1 << 18
# How many connections wait to be accepted, how much of a log is read at a time, and how many seconds connections have
# at the end to read what they are answered.
BACKLOG, PIECE, GRACE = 1024, 1 << 20, 5
ENDING = signal.SIGTERM, signal.SIGINT


class Refused(Exception):
    """Why the broker does not start."""


def say(words: str) -> None:
    print(f'broker: {words}', file=sys.stderr, flush=True)


def sync_folder(path: Path) -> None:
    """What was created or renamed in the folder of this file is on the disk."""
    folder = os.open(path.parent, os.O_RDONLY)
    try:
        os.fsync(folder)
    finally:
        os.close(folder)


def write_all(file: int, text: bytes) -> None:
    left = memoryview(text)
    while left:
        left = left[os.write(file, left):]


def write_new(path: Path, text: bytes, mode: int = 0o600) -> None:
    """Writes a file that takes the place of another one once it is renamed."""
    file = os.open(path, os.O_WRONLY | os.O_CREAT | os.O_TRUNC, mode)
    try:
        write_all(file, text)
        os.fsync(file)
    finally:
        os.close(file)
    sync_folder(path)


def beside(path: Path) -> Path:
    return path.with_name(path.name + '.new')


def rename(path: Path) -> None:
    """Puts the file beside this one in its place."""
    os.replace(beside(path), path)
    sync_folder(path)


class Scenario:
    """The file that the service is started from."""

    def __init__(self, path: str):
        # a link stays one, and what it leads to is replaced
        self.path = Path(path).resolve()

    @staticmethod
    def head_of(path: Path) -> bytes:
        """The first line of the logs that belong to the scenario at this path."""
        return b'{"log of calls":1,"scenario":"sha256 %b"}\n' % hashlib.sha256(path.read_bytes()).hexdigest().encode()

    def head(self) -> bytes:
        return self.head_of(self.path)

    def finish_snapshot(self, head: bytes) -> None:
        """Renames a snapshot to which the log with this first line belongs: the broker ended before it could."""
        new = beside(self.path)
        if head != self.head() and new.exists() and head == self.head_of(new):
            rename(self.path)

    def take_snapshot(self, records: List[int], log: Optional['Log']) -> None:
        """These records take the place of those in the file, and the log begins anew.

        The new scenario and the new log are written beside the old ones. The log is renamed first, and from then on
        counts: `finish_snapshot` renames the scenario if this does not get so far.
        """
        scenario = json.loads(self.path.read_bytes())
        scenario['records'] = records
        text = json.dumps(scenario, separators=(',', ':'), ensure_ascii=False).encode() + b'\n'
        if len(text) > LONGEST_SCENARIO:
            raise OSError(errno.EFBIG, 'the snapshot is too long for a scenario', str(self.path))
        new = beside(self.path)
        write_new(new, text)
        shutil.copymode(self.path, new)
        if log:
            log.begin(self.head_of(new))
        rename(self.path)


class Log:
    """The lines whose calls were made, in their order; the first line says to which scenario they belong."""

    def __init__(self, path: str, scenario: Scenario):
        self.path = Path(path).resolve()
        self.lock()
        if not self.path.exists():
            self.begin(scenario.head())
        self.file = os.open(self.path, os.O_RDWR | os.O_APPEND)
        with open(self.path, 'rb') as text:
            head = text.readline(4096)
        scenario.finish_snapshot(head)
        if head != scenario.head():
            raise Refused(f'{self.path} is no log of calls for this {scenario.path}')
        self.begins = self.size = len(head)

    def lock(self) -> None:
        """Keeps other brokers from this log, until this process ends."""
        self.locked = os.open(f'{self.path}.lock', os.O_RDWR | os.O_CREAT, 0o600)
        try:
            fcntl.flock(self.locked, fcntl.LOCK_EX | fcntl.LOCK_NB)
        except BlockingIOError:
            raise Refused(f'another broker has the log {self.path}') from None

    def begin(self, head: bytes) -> None:
        """Begins a log in place of the one that is there."""
        write_new(beside(self.path), head)
        rename(self.path)

    def lines(self) -> Iterator[bytes]:
        """The lines of the log, many at a time. A torn last line is cut off at the end: it was not answered."""
        rest = b''
        at = self.begins
        while True:
            piece = os.pread(self.file, PIECE, at)
            if not piece:
                break
            at += len(piece)
            lines, feed, rest = (rest + piece).rpartition(b'\n')
            if feed:
                yield lines + feed
        self.size = at - len(rest)
        os.ftruncate(self.file, self.size)

    def append(self, text: bytes) -> None:
        """Returns once these lines are on the disk. If that fails they are taken back, as far as the disk allows."""
        try:
            write_all(self.file, text)
            os.fdatasync(self.file)
        except OSError:
            os.ftruncate(self.file, self.size)
            raise
        self.size += len(text)


class Connection(asyncio.Protocol):
    """A connection: its lines go to the broker, which writes the answers."""

    def __init__(self, broker: 'Broker'):
        self.broker = broker
        self.begun = b''
        # how many of its lines have no answer yet
        self.asked = 0
        self.is_open, self.at_end = True, False

    def connection_made(self, transport: Any) -> None:
        self.transport = transport
        transport.set_write_buffer_limits(MOST_UNREAD)
        self.broker.connected(self)

    def data_received(self, data: bytes) -> None:
        lines, feed, rest = data.rpartition(b'\n')
        if feed:
            self.broker.take(self, self.begun + lines + feed)
            self.begun = rest
        else:
            self.begun += rest
        # that a line is too long the service says itself, and it need not see all of it
        self.begun = self.begun[:LONGEST + 1]

    def eof_received(self) -> bool:
        """It writes no more; it stays open until all is answered. Its last line may lack the line feed."""
        self.at_end = True
        self.broker.reading.discard(self)
        if self.begun:
            self.broker.take(self, self.begun + b'\n')
            self.begun = b''
        return self.asked > 0

    def answer(self, text: bytes, count: int) -> None:
        self.asked -= count
        if self.is_open:
            self.transport.write(text)
            if self.at_end and not self.asked:
                self.transport.close()

    def pause_writing(self) -> None:
        """It does not read, and must not hold up others."""
        self.is_open = False
        self.transport.abort()

    def connection_lost(self, why: Optional[Exception]) -> None:
        self.is_open = False
        self.broker.disconnected(self)


class Service(asyncio.SubprocessProtocol):
    """What asyncio tells of the service's process."""

    def __init__(self, broker: 'Broker'):
        self.broker = broker
        self.writable = asyncio.Event()
        self.writable.set()
        self.ended = asyncio.Event()

    def connection_made(self, transport: Any) -> None:
        self.transport = transport
        self.input = transport.get_pipe_transport(0)
        self.input.set_write_buffer_limits(MOST_UNWRITTEN)

    def pause_writing(self) -> None:
        self.writable.clear()

    def resume_writing(self) -> None:
        self.writable.set()
        self.broker.hold_or_go_on()

    def pipe_data_received(self, fd: int, data: bytes) -> None:
        self.broker.answered(data)

    def connection_lost(self, why: Optional[Exception]) -> None:
        self.status = self.transport.get_returncode()
        self.ended.set()
        self.broker.stopping.set()


class Broker:
    """One service, and the connections that share it.

    Answers come in the order of the lines. So nothing is parsed: line feeds are counted, and each answer goes to the
    connection whose turn it is.
    """

    def __init__(self, scenario: Scenario, program: str, log: Optional[Log]):
        self.scenario, self.program, self.log = scenario, program, log
        self.connections: Set[Connection] = set()
        # the connections from which more may come
        self.reading: Set[Connection] = set()
        # lines with their connection and their number, in order: not yet on the disk or not yet written; and those
        # that the service has not answered yet, without their text
        self.taken: List[Tuple[Connection, int, bytes]] = []
        self.taken_bytes = 0
        self.turns: Deque[List[Any]] = deque()
        self.is_forwarding = self.is_held = self.is_stopping = False
        # how many answers to lines of the log are still to come, while these are made anew
        self.to_replay: Optional[int] = None
        # what the service has begun to write: an answer, and at the end the last line
        self.begun = b''
        self.failure: Optional[str] = None

    async def run(self, listener: socket.socket) -> int:
        """Serves until a signal, or the end of the service; returns the status."""
        self.loop = asyncio.get_running_loop()
        self.stopping, self.forwarded = asyncio.Event(), asyncio.Event()
        for number in ENDING:
            self.loop.add_signal_handler(number, self.stopping.set)
        signal.pthread_sigmask(signal.SIG_UNBLOCK, ENDING)
        # in a session of its own Ctrl-C does not reach it: it ends when its input does
        _, self.service = await self.loop.subprocess_exec(
            lambda: Service(self), self.program, 'serve', str(self.scenario.path), stdin=subprocess.PIPE,
            stdout=subprocess.PIPE, stderr=None, start_new_session=True)
        if self.log:
            await self.replay(self.log)
        server = await self.loop.create_unix_server(lambda: Connection(self), sock=listener)
        await self.stopping.wait()
        server.close()
        await self.answer_what_was_read()
        await self.disconnect()
        return self.end()

    async def replay(self, log: Log) -> None:
        """Makes the calls of the log, whose answers nobody waits for."""
        began, count, self.to_replay = time.monotonic(), 0, 0
        replayed = self.replayed = asyncio.Event()
        for lines in log.lines():
            count += lines.count(b'\n')
            self.to_replay += lines.count(b'\n')
            replayed.clear()
            self.service.input.write(lines)
            await self.first_of(self.service.writable)
            if self.service.ended.is_set():
                break
        if self.to_replay:
            await self.first_of(replayed)
        self.to_replay = None
        say(f'{count:,} lines of {log.path} were replayed in {time.monotonic() - began:.1f} s')

    async def first_of(self, event: asyncio.Event) -> None:
        """Waits for this, or for the end of the service."""
        waiting = [asyncio.ensure_future(each.wait()) for each in (event, self.service.ended)]
        await asyncio.wait(waiting, return_when=asyncio.FIRST_COMPLETED)
        for each in waiting:
            each.cancel()

    def connected(self, connection: Connection) -> None:
        self.connections.add(connection)
        self.reading.add(connection)
        if self.is_held:
            connection.transport.pause_reading()

    def disconnected(self, connection: Connection) -> None:
        self.connections.discard(connection)
        self.reading.discard(connection)

    def take(self, connection: Connection, lines: bytes) -> None:
        """What a connection has written, up to a line feed."""
        count = lines.count(b'\n')
        connection.asked += count
        self.taken.append((connection, count, lines))
        self.taken_bytes += len(lines)
        self.hold_or_go_on()
        self.forward_soon()

    def hold_or_go_on(self) -> None:
        """Reads from no connection while much waits for the service, and at the end."""
        hold = self.is_stopping or self.taken_bytes > MOST_UNWRITTEN or not self.service.writable.is_set()
        if hold != self.is_held:
            self.is_held = hold
            for connection in self.reading:
                if hold:
                    connection.transport.pause_reading()
                else:
                    connection.transport.resume_reading()

    def forward_soon(self) -> None:
        """What comes in one turn of the loop, or while the disk is busy, is written at once."""
        if self.is_forwarding or self.failure:
            return
        self.is_forwarding = True
        if self.log:
            self.logging = asyncio.ensure_future(self.forward_logged(self.log))
        else:
            self.loop.call_soon(self.forward)

    def forward(self) -> None:
        self.is_forwarding = False
        self.write(self.take_all())

    async def forward_logged(self, log: Log) -> None:
        """Lines are written to the service once they are on the disk, or never."""
        try:
            while self.taken:
                taken = self.take_all()
                text = b''.join(lines for _, _, lines in taken)
                await self.loop.run_in_executor(None, log.append, text)
                self.write(taken)
        except Exception as why:
            self.failure = f'the log {log.path} cannot be written: {why}'
            self.stopping.set()
        self.is_forwarding = False
        self.forwarded.set()

    def take_all(self) -> List[Tuple[Connection, int, bytes]]:
        taken, self.taken, self.taken_bytes = self.taken, [], 0
        self.hold_or_go_on()
        return taken

    def write(self, taken: List[Tuple[Connection, int, bytes]]) -> None:
        if not self.service.ended.is_set():
            self.turns.extend([connection, count] for connection, count, _ in taken)
            self.service.input.write(b''.join(lines for _, _, lines in taken))

    def answered(self, text: bytes) -> None:
        """Gives what the service has written to the connections whose turn it is."""
        if self.to_replay is not None:
            self.to_replay -= text.count(b'\n')
            if not self.to_replay:
                self.replayed.set()
            return
        *lines, self.begun = (self.begun + text).split(b'\n')
        at = 0
        while at < len(lines):
            if not self.turns:
                # the last line
                self.begun = b'\n'.join([*lines[at:], self.begun])
                break
            turn = self.turns[0]
            connection, left = turn
            own = lines[at:at + left]
            at += len(own)
            turn[1] -= len(own)
            if not turn[1]:
                self.turns.popleft()
            own.append(b'')
            connection.answer(b'\n'.join(own), len(own) - 1)

    async def answer_what_was_read(self) -> None:
        """All that was read is answered, and the service ends."""
        self.is_stopping = True
        self.hold_or_go_on()
        while self.is_forwarding:
            self.forwarded.clear()
            if self.log:
                await self.forwarded.wait()
            else:
                await asyncio.sleep(0)
        self.service.input.close()
        await self.service.ended.wait()

    async def disconnect(self) -> None:
        """Closes the connections: they have some seconds to read what they were answered."""
        until = time.monotonic() + GRACE
        for connection in list(self.connections):
            connection.transport.close()
        while self.connections and time.monotonic() < until:
            await asyncio.sleep(0.01)
        for connection in list(self.connections):
            connection.transport.abort()

    def end(self) -> int:
        """Writes the last line, and with --snapshot the new scenario."""
        if self.service.status:
            self.failure = self.failure or f'the service ended with status {self.service.status}'
        if not self.service.status:
            sys.stdout.buffer.write(self.begun)
            sys.stdout.flush()
        if self.failure:
            say(self.failure)
        return 1 if self.failure else 0

    def last_records(self) -> List[int]:
        return json.loads(self.begun)['records']


def bound(path: str) -> socket.socket:
    """A socket at this path to which this user alone can connect, in place of one at which nobody listens."""
    listener = socket.socket(socket.AF_UNIX)
    mask = os.umask(0o177)
    try:
        if is_deserted(path):
            os.unlink(path)
        listener.bind(path)
    except OSError as why:
        raise Refused(f'{path}: {why.strerror or why}') from why
    finally:
        os.umask(mask)
    listener.listen(BACKLOG)
    return listener


def is_deserted(path: str) -> bool:
    """Whether this is a socket that a process has left behind."""
    try:
        if not stat.S_ISSOCK(os.stat(path).st_mode):
            return False
        with socket.socket(socket.AF_UNIX) as trial:
            trial.connect(path)
    except ConnectionRefusedError:
        return True
    except FileNotFoundError:
        pass
    return False


def allow_many_connections() -> None:
    _, most = resource.getrlimit(resource.RLIMIT_NOFILE)
    resource.setrlimit(resource.RLIMIT_NOFILE, (most, most))


def serve(words: argparse.Namespace) -> int:
    scenario = Scenario(words.file)
    log = Log(words.log, scenario) if words.log else None
    with bound(words.socket) as listener:
        ours = os.stat(words.socket).st_ino
        try:
            broker = Broker(scenario, words.program, log)
            status = asyncio.run(broker.run(listener))
        finally:
            if os.path.exists(words.socket) and os.stat(words.socket).st_ino == ours:
                os.unlink(words.socket)
    if words.snapshot and not status:
        scenario.take_snapshot(broker.last_records(), log)
    return status


def main() -> int:
    parser = argparse.ArgumentParser(description='Lets many processes share one `vll serve` over a unix socket.')
    parser.add_argument('socket', metavar='SOCKET', help='where it listens')
    parser.add_argument('file', metavar='FILE', help='the scenario')
    parser.add_argument('--program', metavar='PATH', default='vll', help='vll without it')
    parser.add_argument('--log', metavar='LOG', help='the file that has the calls')
    parser.add_argument('--snapshot', action='store_true', help='at the end the records are written to FILE')
    words = parser.parse_args()
    allow_many_connections()
    # until the broker is there to hear them
    signal.pthread_sigmask(signal.SIG_BLOCK, ENDING)
    try:
        return serve(words)
    except Refused as why:
        say(str(why))
        return 2
    except OSError as why:
        say(str(why))
        return 1


if __name__ == '__main__':
    sys.exit(main())
