"""Calls the procedures of a `vll serve` from Python: one file, no packages, Python 3.8 or later.

By threads, any number of which may share one service:

    import vll

    with vll.Service('bank.json') as bank:
        reply = bank.transfer(0, 1, 30)            # a procedure of bank.json; waits for the answer
        print(reply[0], reply.call)                # the outputs, and the call's place in the order of all calls
        later = bank.submit('transfer', 1, 0, 5)   # does not wait
        print(later.result())
    print(bank.last.records)

By asyncio:

    async with vll.AsyncService('bank.json') as bank:
        reply = await bank.transfer(0, 1, 30)

`Service(file, socket=path)` calls the service behind `clients/broker.py`, which many processes can share, and starts
none.

A call that does not commit raises `Aborted` or, if it can be tried again, `Moved`; one that cannot be made raises
`Fault`. Once the service has ended all raise `Ended`: whether a call that was in flight then was made is not known.
"""
import asyncio
import functools
import json
import os
import select
import socket as sockets
import struct
import subprocess
import tempfile
import threading
import time
from collections import deque
from typing import Any, Callable, Deque, Dict, Iterable, List, NamedTuple, Optional, Tuple, Union

__all__ = ['AsyncService', 'Service', 'Future', 'Reply', 'Last', 'Error', 'Aborted', 'Moved', 'Fault', 'Ended']

LARGEST = 2 ** 64 - 1
# How much is read at a time, how often calls for which nobody waits are looked after, and how long a service may take
# to end once it has closed its output.
PIECE, TICK, PATIENCE = 1 << 16, 0.002, 60
# How many lines are written though nobody waits for an answer.
BATCH = 256
# How many bytes are kept of what a service says: more than its explanation of a refused file has.
MOST_SAID = 1 << 15


class Error(Exception):
    """What a call raises that is not committed."""


class Aborted(Error):
    """The call was made, and aborted: no record has changed.

    `reason` is the number with which its procedure aborted, or 'overflow', 'underflow', 'zero divisor' or 'moved';
    `call` is its place in the order of all calls.
    """

    def __init__(self, call: int, reason: Union[int, str]):
        super().__init__(call, reason)
        self.call, self.reason = call, reason

    def __str__(self) -> str:
        return f'call {self.call} was aborted: {self.reason}'


class Moved(Aborted):
    """The value by which the call found a record has changed meanwhile: the call can be made again."""


class Fault(Error):
    """The line asks for no call, as one with a wrong number of arguments: nothing was done."""


class Ended(Error):
    """The service has ended, or was closed.

    Raised by `submit`, it says that the call was not made. Raised for the answer to a call, it says nothing of the
    call: it may have been made or not.
    """


class Reply(list):
    """The outputs of a committed call; `call` is its place in the order of all calls."""

    __slots__ = ('call',)
    call: int


class Last(NamedTuple):
    """What a service says when it ends: how many calls were made, and the records that they left."""

    calls: int
    records: List[int]


Outcome = Union[Reply, Last, Error]


def outcome_of(answer: Dict[str, Any]) -> Outcome:
    """What a line of the service says."""
    if 'calls' in answer:
        return Last(answer['calls'], answer['records'])
    if 'fault' in answer:
        return Fault(answer['fault'])
    return made(answer['call'], answer['committed'] if 'committed' in answer else answer['aborted'])


def made(call: int, result: Any) -> Outcome:
    """What a call gave: the list of its outputs, or why it was aborted."""
    if result.__class__ is list:
        reply = Reply(result)
        reply.call = call
        return reply
    return (Moved if result == 'moved' else Aborted)(call, result)


def form_of(name: str, count: int) -> bytes:
    """A line that calls this procedure, where a client and so many arguments are to be put in."""
    text = json.dumps(name).replace('%', '%%')
    return f'{{"client":%d,"proc":{text},"args":[{",".join(["%d"] * count)}]}}\n'.encode()


class Answers:
    """Reads what a service writes."""

    def __init__(self) -> None:
        self._begun: List[bytes] = []

    def read(self, piece: bytes) -> List[Outcome]:
        """The outcomes of the lines that this piece completes."""
        whole, feed, rest = piece.rpartition(b'\n')
        if not feed:
            self._begun.append(piece)
            return []
        lines = b''.join([*self._begun, whole]).decode()
        self._begun = [rest]
        # most calls are made: without the names of its members such a line is read in half the time
        members = lines.replace('{"call":', '').replace('"committed":', '').replace('"aborted":', '')
        if '{' not in members:
            values = json.loads('[%s]' % members.replace('}\n', ',')[:-1])
            if len(values) == 2 * (lines.count('\n') + 1):
                return [made(call, result) for call, result in zip(values[::2], values[1::2])]
        # JSON has no line feed within a text, so all lines are one list once they have commas between them
        return list(map(outcome_of, json.loads('[%s]' % lines.replace('\n', ','))))


class Procedures:
    """The procedures of a scenario: their calls as lines, and a method under each one's name that makes a call."""

    def __init__(self, file: Union[str, 'os.PathLike[str]']):
        with open(file, encoding='utf-8') as text:
            scenario = json.load(text)
        try:
            counts = {proc['name']: proc['args'] for proc in scenario['procs']}
            # to define `__getattr__` would make each use of an attribute slower
            for name in counts:
                if not hasattr(type(self), name):
                    setattr(self, name, functools.partial(self.call, name))
            self._counts, self._clients = counts, len(scenario['clients'])
            # of each procedure what refuses numbers that are not whole, and a line
            self._forms = {name: (struct.Struct(f'={1 + count}Q').pack, form_of(name, count))
                           for name, count in counts.items()}
        except (KeyError, TypeError, struct.error) as why:
            raise ValueError(f'{file} is no scenario: vll explain says more') from why

    def _line(self, proc: str, args: Any, client: int) -> bytes:
        try:
            pack, form = self._forms[proc]
            numbers = (client, *args)
            pack(*numbers)
            if client < self._clients:
                return form % numbers
        except (KeyError, TypeError, struct.error, OverflowError):
            pass
        raise Fault(self._fault(proc, args, client))

    def _fault(self, proc: str, args: Any, client: int) -> str:
        """Why there is no such call."""
        if proc not in self._counts:
            return f'there is no procedure {proc}'
        if len(args) != self._counts[proc]:
            return f'{proc} takes {self._counts[proc]} arguments, and not {len(args)}'
        for number in args:
            try:
                struct.pack('=Q', number)
            except (struct.error, OverflowError):
                return f'{number!r} is no whole number from 0 to {LARGEST}'
        return f'there is no client {client!r}'

    def call(self, proc: str, *args: int, client: int = 0) -> Any:
        raise NotImplementedError


class Child:
    """A `vll serve` of our own, over two pipes."""

    def __init__(self, file: Union[str, 'os.PathLike[str]'], program: Union[str, 'os.PathLike[str]']):
        # a file takes all that is said on standard error, a pipe would have to be read
        self._said = tempfile.TemporaryFile()
        # Ctrl-C goes to all processes of a group: the service is in one of its own, and ends when its input does
        try:
            self._process = subprocess.Popen([program, 'serve', file], stdin=subprocess.PIPE, stdout=subprocess.PIPE,
                                             stderr=self._said, bufsize=0, start_new_session=True)
        except OSError:
            self._said.close()
            raise
        self.to, self.back = self._process.stdin.fileno(), self._process.stdout.fileno()

    def end_input(self) -> None:
        self._process.stdin.close()

    def kill(self) -> None:
        self._process.kill()

    def end(self) -> Optional[str]:
        """Waits for its end, and says why it ended early."""
        for pipe in self._process.stdin, self._process.stdout:
            pipe.close()
        try:
            status = self._process.wait(PATIENCE)
        except subprocess.TimeoutExpired:
            self._process.kill()
            status = self._process.wait()
        with self._said as said:
            return early(status, said)


class Connection:
    """A connection to a broker."""

    def __init__(self, path: Union[str, 'os.PathLike[str]']):
        self._socket = sockets.socket(sockets.AF_UNIX)
        self._socket.connect(os.fspath(path))
        self.to = self.back = self._socket.fileno()

    def end_input(self) -> None:
        self.kill(sockets.SHUT_WR)

    def kill(self, how: int = sockets.SHUT_RDWR) -> None:
        try:
            self._socket.shutdown(how)
        except OSError:
            pass  # the broker has gone away

    def end(self) -> str:
        self._socket.close()
        return 'the broker has closed the connection'


def early(status: int, said: Any) -> Optional[str]:
    """Why a service ended with this status and these words, if it did not end as it should."""
    said.seek(max(0, said.seek(0, os.SEEK_END) - MOST_SAID))
    words = said.read().decode(errors='replace').strip()
    return f'status {status}: {words}' if status else None


class Future:
    """The answer to a call, which may not be there yet."""

    # each service has a class of its own futures, so that `__init__` has nothing to do
    __slots__ = ('_outcome',)
    _service: 'Service'
    _outcome: Optional[Outcome]

    def done(self) -> bool:
        """Whether the answer is there."""
        return self._outcome is not None

    def result(self, timeout: Optional[float] = None) -> Reply:
        """Waits for the answer, and returns the outputs or raises why there are none.

        Raises `TimeoutError` after so many seconds; the call is made all the same.
        """
        if self._outcome is None:
            self._service._wait(self, timeout)
        outcome = self._outcome
        if outcome.__class__ is Reply:
            return outcome
        raise outcome

    def exception(self, timeout: Optional[float] = None) -> Optional[Error]:
        """Waits for the answer, and returns why the call is not committed, or None if it is."""
        if self._outcome is None:
            self._service._wait(self, timeout)
        outcome = self._outcome
        return None if outcome.__class__ is Reply else outcome

    def add_done_callback(self, callback: Callable[['Future'], Any]) -> None:
        """Calls this function with the future once the answer is there, in any thread. It must not wait for calls."""
        with self._service._lock:
            if self._outcome is None:
                self._service._callbacks.setdefault(self, []).append(callback)
                return
        callback(self)


class Service(Procedures):
    """A service that threads call.

    It is started from the scenario `file` by `program`, or is the one behind the broker at `socket`. At most
    `in_flight` calls lack an answer at a time: `submit` waits while there are so many.

    Whoever waits for an answer reads: the first who waits reads for all, and hands on once its own answer is there, so
    that an answer needs no switch to another thread. Those whose answer is there too are woken one by the other, since
    all at once would only wait for each other; what they submit meanwhile the last of them writes at once. A thread in
    the background looks every few milliseconds after calls for which nobody waits: so all that was submitted is
    written, and all that is answered read.
    """

    def __init__(self, file: Union[str, 'os.PathLike[str]'], program: Union[str, 'os.PathLike[str]'] = 'vll',
                 in_flight: int = 1000, socket: Union[None, str, 'os.PathLike[str]'] = None):
        super().__init__(file)
        if in_flight < 1:
            raise ValueError('in_flight has to be at least 1')
        self._in_flight = in_flight
        self._service: Union[Child, Connection] = Connection(socket) if socket else Child(file, program)
        os.set_blocking(self._service.to, False)
        os.set_blocking(self._service.back, False)
        self._answered, self._answered_or_free = self._polls()
        # The lock guards all below; whoever has set `_reading` or `_writing` is the only one who reads or writes.
        self._lock = threading.Lock()
        self._reading = self._writing = self._input_ended = False
        self._is_open = True
        # whether the service did not take all that was written last
        self._is_full = False
        self._lines: List[bytes] = []
        self._pending: Deque[Future] = deque()
        self._callbacks: Dict[Future, List[Callable[[Future], Any]]] = {}
        # the locks on which threads sleep, each with what it waits for, and those whose answer is there meanwhile
        self._sleeping: Dict[threading.Lock, Future] = {}
        self._waking: Deque[threading.Lock] = deque()
        self._answers = Answers()
        self._last: Optional[Last] = None
        self._future = type('Future', (Future,), {'__slots__': (), '_service': self})
        self._end = self._future()
        self._end._outcome = None
        # whether calls may be looked after, and whether somebody has just waited, who did so
        self._is_due, self._due, self._is_waited = False, threading.Event(), False
        threading.Thread(target=self._look_after, daemon=True, name='vll').start()

    def _polls(self) -> Tuple[select.poll, select.poll]:
        """What waits until there is an answer, and what waits also until more can be written."""
        answered, either = select.poll(), select.poll()
        answered.register(self._service.back, select.POLLIN)
        either.register(self._service.back, select.POLLIN)
        # the two are one if it is a socket
        also = select.POLLIN if self._service.to == self._service.back else 0
        either.register(self._service.to, select.POLLOUT | also)
        return answered, either

    @property
    def last(self) -> Optional[Last]:
        """The service's last line, once it has ended well. A broker writes that line itself, so there it is None."""
        return self._last

    def submit(self, proc: str, *args: int, client: int = 0) -> Future:
        """Makes a call without waiting for its answer."""
        line, future = self._line(proc, args, client), self._future()
        future._outcome = None
        while True:
            with self._lock:
                if not self._is_open:
                    end = self._end._outcome
                    raise Ended(*end.args) if isinstance(end, Ended) else Ended('the service was closed')
                if len(self._pending) < self._in_flight:
                    self._pending.append(future)
                    self._lines.append(line)
                    if not self._is_due:
                        self._is_due = True
                        self._due.set()
                    if len(self._lines) != BATCH:
                        return future
                    break
                oldest = self._pending[0]
            self._wait(oldest, None)
        self._write()
        return future

    def call(self, proc: str, *args: int, client: int = 0) -> Reply:
        """Makes a call, waits for its answer, and returns the outputs or raises why there are none."""
        return self.submit(proc, *args, client=client).result()

    def close(self, timeout: Optional[float] = None) -> Optional[Last]:
        """Waits until all calls are answered and the service has ended; returns its last line, None from a broker.

        Raises `Ended` if the service ended otherwise, and `TimeoutError` after so many seconds; it can be called again.
        """
        with self._lock:
            self._is_open = False
        self._wait(self._end, timeout)
        if isinstance(self._end._outcome, Error):
            raise self._end._outcome
        return self._last

    def kill(self) -> None:
        """Ends the service, or the connection to the broker, at once: what is in flight has an unknown outcome."""
        self._service.kill()

    def __enter__(self) -> 'Service':
        return self

    def __exit__(self, kind: Any, *_: Any) -> None:
        try:
            self.close()
        except Ended:
            if kind is None:
                raise

    def _wait(self, future: Future, timeout: Optional[float]) -> None:
        """Reads until this answer is there, or sleeps while another thread reads."""
        until = None if timeout is None else time.monotonic() + timeout
        self._is_waited = True
        # those who are being woken may have more to write
        if not self._waking:
            self._write()
        with self._lock:
            if future._outcome is not None:
                return
            reads = not (self._reading or self._waking)
            if reads:
                self._reading = True
            else:
                gate = threading.Lock()
                gate.acquire()
                self._sleeping[gate] = future
        if reads or self._sleep(gate, future, until):
            try:
                while future._outcome is None and self._turn(until):
                    pass
            finally:
                self._hand_on()
        if future._outcome is None:
            raise TimeoutError('the answer is not there yet')

    def _sleep(self, gate: threading.Lock, future: Future, until: Optional[float]) -> bool:
        """Sleeps until the answer is there, or it is this thread's turn to read: it says whether that is so."""
        try:
            woken = gate.acquire(timeout=-1 if until is None else max(0, until - time.monotonic()))
        except BaseException:
            if self._is_woken(gate):
                self._hand_on() if future._outcome is None else self._go_on()
            raise
        if not (woken or self._is_woken(gate)):
            return False
        if future._outcome is not None:
            self._go_on()
        return future._outcome is None

    def _is_woken(self, gate: threading.Lock) -> bool:
        """Whether it need not sleep any more; it does not do so in any case."""
        with self._lock:
            return self._sleeping.pop(gate, None) is None

    def _hand_on(self) -> None:
        """Reads no more."""
        with self._lock:
            self._reading = False
        self._go_on()

    def _wake_next(self) -> bool:
        """Wakes one whose answer is there, who has to go on; says whether there is one."""
        with self._lock:
            if not self._waking:
                return False
            self._waking.popleft().release()
            return True

    def _go_on(self) -> None:
        """Wakes the next one whose answer is there. The last one writes; then whoever has waited longest reads."""
        if self._wake_next():
            return
        self._write()
        with self._lock:
            if self._sleeping and not (self._reading or self._waking):
                self._reading = True
                gate = next(iter(self._sleeping))
                del self._sleeping[gate]
                gate.release()

    def _look_after(self) -> None:
        while self._end._outcome is None:
            self._due.wait()
            time.sleep(TICK)
            if self._is_waited:
                self._is_waited = False
                continue
            with self._lock:
                if not (self._pending or self._lines or self._waking):
                    self._is_due = False
                    self._due.clear()
                    continue
                reads = not self._reading
                self._reading = True
            if not reads:
                # an interrupt can keep whoever was woken from going on
                self._go_on()
                continue
            try:
                self._turn(0)
            finally:
                self._hand_on()

    def _turn(self, until: Optional[float]) -> bool:
        """Writes what is left, waits for answers, and gives them to those who wait; says whether some came in time."""
        if not self._wake_next():
            self._write()
        if self._end._outcome is not None:
            return False
        ready = self._answered_or_free if self._is_full else self._answered
        found = ready.poll(None if until is None else max(0, until - time.monotonic()) * 1000)
        if any(event != select.POLLOUT for _, event in found):
            self._read()
        return bool(found)

    def _write(self) -> None:
        """Writes all lines that there are, as far as the service takes them; not if another thread is about it."""
        with self._lock:
            if self._writing or self._input_ended or not self._lines and self._is_open:
                return
            self._writing = True
        try:
            while self._write_once():
                pass
        except BaseException:
            # it is not known how much was written
            self._service.kill()
            with self._lock:
                self._lines.clear()
                self._writing, self._input_ended = False, True
            raise

    def _write_once(self) -> bool:
        """Writes a piece, and says whether there may be more to write."""
        with self._lock:
            if not self._lines:
                self._writing = False
                if not self._is_open:
                    self._input_ended = True
                    self._service.end_input()
                return False
            text, self._lines = b''.join(self._lines), []
        try:
            count = os.write(self._service.to, text)
        except BlockingIOError:
            count = 0
        except OSError:
            count = len(text)  # the service has ended: who reads finds out
        self._is_full = count < len(text)
        if self._is_full:
            with self._lock:
                self._lines.insert(0, text[count:])
                self._writing = False
        return not self._is_full

    def _read(self) -> None:
        try:
            try:
                piece = os.read(self._service.back, PIECE)
            except BlockingIOError:
                return
            except OSError:
                piece = b''
            if piece:
                self._give(self._answers.read(piece))
            else:
                self._finish(None)
        except (ValueError, KeyError, IndexError, TypeError, AttributeError) as why:
            self._service.kill()
            self._finish(f'what it wrote is no answer: {why!r}')
        except BaseException:
            # an answer may have been lost, and those behind it would go to the wrong calls
            self._service.kill()
            self._finish('it was interrupted')
            raise

    def _give(self, outcomes: List[Outcome]) -> None:
        """Gives the answers to the first calls that lack one; whoever reads goes on to wake those who sleep."""
        with self._lock:
            if outcomes and isinstance(outcomes[-1], Last):
                self._last = outcomes.pop()
            if len(outcomes) > len(self._pending):
                raise ValueError('there are more answers than calls')
            for future, outcome in zip(self._pending, outcomes):
                future._outcome = outcome
            settled = [self._pending.popleft() for _ in outcomes]
            woken = [gate for gate, future in self._sleeping.items() if future._outcome is not None]
            for gate in woken:
                del self._sleeping[gate]
            self._waking.extend(woken)
            if not self._callbacks:
                return
            called = [(future, callback) for future in settled for callback in self._callbacks.pop(future, ())]
        self._wake_next()
        for future, callback in called:
            try:
                callback(future)
            except Exception:  # as concurrent.futures does: it is not the reader's fault
                import traceback
                traceback.print_exc()

    def _finish(self, why: Optional[str]) -> None:
        """The service has ended: all that lacks an answer has an unknown outcome."""
        with self._lock:
            if self._end._outcome is not None:
                return
            # nobody writes any more to a file that is closed now
            self._input_ended = True
        said = self._service.end()
        is_well = why is None and not self._is_open and not self._pending
        if isinstance(self._service, Child):
            is_well = is_well and said is None and self._last is not None
        if not is_well:
            self._last = None
        with self._lock:
            self._is_open = False
            self._lines.clear()
            ends: List[Outcome] = [Ended(f'the service has ended: {why or said or "its last line is missing"}')
                                   for _ in range(len(self._pending) + 1)]
            self._pending.append(self._end)
        self._give([*ends[1:], Reply()] if is_well else ends)
        self._due.set()


class AsyncService(Procedures):
    """The same for asyncio: `submit` returns an asyncio future, `call` and the procedures are awaited.

    At most `in_flight` lines lack an answer; calls beyond these wait in the client. If whoever awaits a call is
    cancelled, the call is not made if its line is not written yet, else it is made all the same.
    """

    def __init__(self, file: Union[str, 'os.PathLike[str]'], program: Union[str, 'os.PathLike[str]'] = 'vll',
                 in_flight: int = 1000, socket: Union[None, str, 'os.PathLike[str]'] = None):
        super().__init__(file)
        if in_flight < 1:
            raise ValueError('in_flight has to be at least 1')
        self._in_flight, self._socket = in_flight, socket
        self._command = [os.fspath(program), 'serve', os.fspath(file)]
        self._queue: Deque[Any] = deque()
        self._pending: 'Deque[asyncio.Future[Reply]]' = deque()
        self._answers = Answers()
        self._last: Optional[Last] = None
        self._writing = self._closing = False
        self._why: Optional[str] = None

    @property
    def last(self) -> Optional[Last]:
        """As of `Service`."""
        return self._last

    async def start(self) -> 'AsyncService':
        """Starts the service; `async with` does so."""
        self._loop = asyncio.get_running_loop()
        self._end = self._loop.create_future()
        if self._socket:
            transport, _ = await self._loop.create_unix_connection(lambda: Heard(self), os.fspath(self._socket))
            self._transport = self._input = transport
            return self
        self._said = tempfile.TemporaryFile()
        self._transport, _ = await self._loop.subprocess_exec(
            lambda: Heard(self), *self._command, stdin=subprocess.PIPE, stdout=subprocess.PIPE, stderr=self._said,
            start_new_session=True)
        self._input = self._transport.get_pipe_transport(0)
        return self

    def submit(self, proc: str, *args: int, client: int = 0) -> 'asyncio.Future[Reply]':
        """Makes a call: the future has the outputs, or why there are none. It does not wait."""
        line = self._line(proc, args, client)
        if self._why is not None or self._closing:
            raise Ended(self._why or 'the service was closed')
        future = self._loop.create_future()
        self._queue.append((future, line))
        self._write_soon()
        return future

    async def call(self, proc: str, *args: int, client: int = 0) -> Reply:
        """Makes a call, and returns the outputs or raises why there are none."""
        return await self.submit(proc, *args, client=client)

    async def close(self) -> Optional[Last]:
        """As of `Service`; `asyncio.wait_for` limits the time."""
        self._closing = True
        self._write_soon()
        await asyncio.shield(self._end)
        if self._why is not None:
            raise Ended(self._why)
        return self._last

    def kill(self) -> None:
        """As of `Service`."""
        if self._socket:
            self._transport.abort()
        else:
            self._transport.kill()

    async def __aenter__(self) -> 'AsyncService':
        return await self.start()

    async def __aexit__(self, kind: Any, *_: Any) -> None:
        try:
            await self.close()
        except Ended:
            if kind is None:
                raise

    def _write_soon(self) -> None:
        """All lines of one turn of the loop are written at once."""
        if not self._writing:
            self._writing = True
            self._loop.call_soon(self._write)

    def _write(self) -> None:
        self._writing = False
        lines = []
        while self._queue and len(self._pending) < self._in_flight:
            future, line = self._queue.popleft()
            if not future.cancelled():
                self._pending.append(future)
                lines.append(line)
        if self._end.done() or self._input.is_closing():
            return
        self._input.write(b''.join(lines))
        if self._closing and not self._queue:
            self._input.write_eof()

    def _read(self, piece: bytes) -> None:
        try:
            for outcome in self._answers.read(piece):
                if isinstance(outcome, Last):
                    self._last = outcome
                else:
                    settle(self._pending.popleft(), outcome)
        except (ValueError, KeyError, IndexError, TypeError, AttributeError) as why:
            self._why = f'the service has ended: what it wrote is no answer: {why!r}'
            self.kill()
        if self._queue:
            self._write_soon()

    def _finish(self, said: Optional[str]) -> None:
        """The service has ended."""
        is_well = self._closing and not self._pending and not self._queue
        if not self._socket:
            is_well = is_well and said is None and self._last is not None
        if not is_well and self._why is None:
            self._why = f'the service has ended: {said or "its last line is missing"}'
        if self._why is not None:
            self._last = None
        for future in [*self._pending, *(future for future, _ in self._queue)]:
            settle(future, Ended(self._why))
        self._pending.clear()
        self._queue.clear()
        if not self._end.done():
            self._end.set_result(None)


def settle(future: 'asyncio.Future[Reply]', outcome: Outcome) -> None:
    if future.done():
        return  # who awaited it was cancelled
    if isinstance(outcome, Error):
        future.set_exception(outcome)
    else:
        future.set_result(outcome)


class Heard(asyncio.Protocol, asyncio.SubprocessProtocol):
    """What asyncio tells of a service of our own, or of a connection to a broker."""

    def __init__(self, service: AsyncService):
        self._service = service

    def connection_made(self, transport: Any) -> None:
        self._transport = transport

    def data_received(self, data: bytes) -> None:
        self._service._read(data)

    def pipe_data_received(self, fd: int, data: bytes) -> None:
        self._service._read(data)

    def connection_lost(self, why: Optional[Exception]) -> None:
        if self._service._socket:
            self._service._finish('the broker has closed the connection')
            return
        with self._service._said as said:
            self._service._finish(early(self._transport.get_returncode(), said))
        self._transport.close()
