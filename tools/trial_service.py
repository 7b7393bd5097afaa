"""The trials of `vll serve`: random streams of lines, judged by a model of the bank of examples/serve, and what no
stream shows: pauses, closed pipes, a very long line, and clients in other languages."""
import contextlib
import errno
import json
import random
import re
import shutil
import subprocess
import sys
import tempfile
import threading
import time
from pathlib import Path

from cases import TOP
from running import SECONDS, Skipped, called, explanation, failure, unlike

BANK = TOP / 'examples/serve/bank.json'
CLIENT = TOP / 'examples/serve/transfers.py'
SOCKET = TOP / 'examples/serve/socat.sh'
ACCOUNTS, CLIENTS, MOST_CLIENTS = 8, 10, 1024

# Lines that ask for no call, and what is said of each.
FAULTY = [
    ('', 'the line is empty'), ('{', 'no JSON text: column 1'), ('7', 'OBJECT'), ('{}', 'PROC'), ('{"client":0}', 'PROC'),
    ('{"client":0,"proc":"balance"}', 'ARGS'), ('{"client":0,"proc":"balance","args":0}', 'ARGS'),
    ('{"client":0,"proc":"balance","args":[0.5]}', 'argument 0 has to be a whole number of 64 bits without a sign'),
    ('{"client":0,"proc":"transfer","args":[0,1,-30]}', 'argument 2 has to be a whole number of 64 bits without a sign'),
    ('{"client":-1,"proc":"balance","args":[0]}', 'CLIENT'), ('{"client":null,"proc":"balance","args":[0]}', 'CLIENT'),
    ('{"client":10,"proc":"balance","args":[0]}', 'there is no client 10'),
    ('{"client":0,"proc":"sum","args":[]}', 'no procedure has the name sum'),
    (f'{{"client":0,"proc":"{"é" * 40}","args":[]}}', f'no procedure has the name {"é" * 40}'),
    (f'{{"client":0,"proc":"{"é" * 30000}","args":[]}}', f'no procedure has the name {"é" * 40}..'),
    ('{"client":0,"proc":"balance","args":[]}', 'the number of arguments has to be 1'),
    ('{"client":0,"proc":"balance","args":[8]}', 'argument 0 has to be the number of a record'),
    ('{"client":0,"proc":"balance","args":[0],"at":1}', 'OBJECT'),
    ('{"counts":true,"proc":"balance","args":[0]}', 'OBJECT'), ('{"counts":false,"client":0}', 'OBJECT'),
    ('{"counts":false}', 'COUNTS'), ('{"counts":null}', 'COUNTS'), ('{"counts":1}', 'COUNTS'),
    ('{"records":[0,1],"client":0}', 'OBJECT'), ('{"records":[0,1],"counts":true}', 'OBJECT'),
    ('{"records":0}', 'RECORDS'), ('{"records":[0]}', 'RECORDS'), ('{"records":[0,1,2]}', 'RECORDS'),
    ('{"records":[0,1.5]}', 'RECORDS'), ('{"records":[-1,1]}', 'RECORDS'), ('{"records":[7,2]}', 'RANGE'),
    ('{"records":[9,0]}', 'RANGE'), ('{"records":[0,1025]}', 'RANGE'),
    ('{"id":null,"client":0,"proc":"balance","args":[0]}', 'ID'),
    (f'{{"id":"{"x" * 65}","client":0,"proc":"balance","args":[0]}}', 'ID'),
    ('x' * 65537, 'the line has more than 65536 bytes'), ('x' * 90000, 'the line has more than 65536 bytes'),
    ('"' + 'x' * 65534 + '"', 'OBJECT'),
]
WORDS = {
    'OBJECT': 'the line has to be an object with proc, args and perhaps client and id',
    'PROC': 'proc has to be the name of a procedure', 'ARGS': 'args has to be a list of whole numbers',
    'RECORDS': 'records has to be a list of two whole numbers, the first record and how many',
    'RANGE': 'records has to ask for at most 1024 records, all of which there are',
    'COUNTS': 'counts has to be true', 'CLIENT': 'client has to be the number of a client',
    'ID': 'id has to be a whole number or a text of at most 64 bytes',
}

# Lines that are cut at each byte, one after the other.
TO_CUT = [line.encode() for line in (
    '{"client":0,"proc":"transfer","args":[0,1,30]}',
    ' {"id":"a\\"\\u00e9é","client":9,"proc":"balance","args":[0]}', '',
    '{"args":[1,0,99],"proc":"transfer","client":1,"id":18446744073709551615}')]
# Lines with bytes that are no UTF-8: alone, within a text, before, between and behind what is JSON; half a character,
# one in too many bytes, one of a pair, and one above the last.
NO_UTF8 = [line.encode('latin-1') for line in (
    '\xff', '{"id":7,"client":0,"proc":"balance\x80","args":[0]}', '\xff{"client":0,"proc":"balance","args":[0]}',
    '{"client":0,\xfe"proc":"balance","args":[0]}', '{"client":0,"proc":"balance","args":[0]}\xbf',
    *(f'{{"id":"{text}","client":0,"proc":"balance","args":[0]}}'
      for text in ('\xc3', '\xc0\x80', '\xed\xa0\x80', '\xf4\x90\x80\x80')))]
BALANCE = b'{"client":0,"proc":"balance","args":[0]}'
NO_JSON = 'no JSON text: column'
CANNOT_WRITE = b'vll: serve: write\n' + failure('standard output', errno.EPIPE)
HAS_CALLS = (b'vll: serve: calls\nthe file has calls, and a service takes them from its lines: leave each list in '
             b'"clients" empty, or use `vll run`\n')
# Scenarios that are refused: one is no JSON, one no object of this kind, and one has a faulty procedure.
REFUSED = (b'{"version":1}]', b'{}', b'{"version":1,"records":[7],"clients":[[]],"procs":[{"name":"p","args":0,'
           b'"keys":[],"body":[["reply",["key",0]]]}]}')


class Bank:
    """The bank, as docs/SERVICE.md and its procedures have it."""

    def __init__(self):
        self.accounts, self.calls, self.aborted = [100] * ACCOUNTS, 0, 0

    def call(self, proc, args):
        """The members of the answer to a call."""
        number, self.calls = self.calls, self.calls + 1
        if proc == 'balance':
            return {'call': number, 'committed': [self.accounts[args[0]]]}
        source, target, amount = args
        if self.accounts[source] < amount:
            self.aborted += 1
            return {'call': number, 'aborted': 1}
        self.accounts[source] -= amount
        self.accounts[target] += amount
        return {'call': number, 'committed': [self.accounts[source]]}

    def answer(self, line):
        """The answer to a line that asks for a call, or that is no JSON text: at which column is left open."""
        if not line:
            return {'fault': 'the line is empty'}
        try:
            asked = json.loads(line.decode())
        except ValueError:
            return {'fault': NO_JSON}
        return {**{name: asked[name] for name in asked if name == 'id'}, **self.call(asked['proc'], asked['args'])}

    def counts(self, rounds, most_lines):
        """The members of the answer to a line with counts. Its procedures abort by a code alone."""
        aborted = {'code': self.aborted, 'overflow': 0, 'underflow': 0, 'zero divisor': 0, 'moved': 0}
        return {'counts': {'calls': self.calls, 'aborted': aborted, 'rounds': rounds, 'most_lines': most_lines}}

    def records(self, first, count):
        """The members of the answer to a line with records."""
        return {'records': self.accounts[first:first + count]}

    def last(self):
        return {'calls': self.calls, 'records': self.accounts}


def line_and_answer(rng, bank):
    """A random line, and the answer to it."""
    if rng.random() < 0.2:
        line, why = rng.choice(FAULTY)
        return line, {'fault': WORDS.get(why, why)}
    proc = rng.choice(['transfer', 'transfer', 'balance'])
    args = [rng.randrange(ACCOUNTS)]
    if proc == 'transfer':
        args += [rng.randrange(ACCOUNTS), rng.choice([0, 1, 30, 101, 2 ** 64 - 1])]
    named = rng.choice([{}, {'id': rng.choice([0, 7, 2 ** 64 - 1])}, {'id': rng.choice(['', 'a"b\\', 'é', '\n', 'x' * 64])}])
    client = rng.choice([{}, {'client': rng.randrange(CLIENTS)}])
    members = list({**named, **client, 'proc': proc, 'args': args}.items())
    rng.shuffle(members)
    spaces = rng.choice([(',', ':'), (', ', ': ')])
    return json.dumps(dict(members), separators=spaces, ensure_ascii=rng.random() < 0.5), {**named, **bank.call(proc, args)}


def stream(seed, count):
    """Random lines, none of them very long, and what is written for them."""
    rng, bank = random.Random(seed), Bank()
    drawn = [line_and_answer(rng, bank) for _ in range(count)]
    lines, answers = zip(*[(line, answer) for line, answer in drawn if len(line) < 1000])
    return [f'{line}\n'.encode() for line in lines], text_of([*answers, bank.last()])


def text_of(answers):
    return ''.join(json.dumps(answer, separators=(',', ':'), ensure_ascii=False) + '\n' for answer in answers).encode()


def served(program, text, *words, file=BANK):
    return called([program, 'serve', file, *words], text)


@contextlib.contextmanager
def at_work(program):
    """The service, over pipes without a buffer of ours. It is killed if it is not done in time, or left before."""
    with subprocess.Popen([program, 'serve', BANK], stdin=subprocess.PIPE, stdout=subprocess.PIPE,
                          stderr=subprocess.PIPE, bufsize=0) as running:
        late = threading.Timer(SECONDS, running.kill)
        late.start()
        try:
            yield running
        finally:
            late.cancel()
            running.kill()


def write(running, text):
    """Writes a text as far as it is read."""
    with contextlib.suppress(BrokenPipeError):
        running.stdin.write(text)


def answers_of(running, count):
    return b''.join(running.stdout.readline() for _ in range(count))


def one_by_one(running, pieces):
    """Writes each piece once the lines before it are answered, and gives the answers."""
    found = []
    for piece in pieces:
        running.stdin.write(piece)
        found.append(answers_of(running, piece.count(b'\n')))
    return b''.join(found)


def ended(running, found):
    """How a service ends, of which this was read."""
    return subprocess.CompletedProcess((), running.wait(SECONDS), found, running.stderr.read())


def random_streams(program):
    """Each of 300 streams is answered as the bank does."""
    for seed in range(300):
        rng, bank = random.Random(seed), Bank()
        lines, answers = zip(*[line_and_answer(rng, bank) for _ in range(rng.choice([1, 30, 300]))])
        text = '\n'.join(lines).encode() + rng.choice([b'', b'\n'] if lines[-1] else [b'\n'])
        words = rng.choice([[], ['--cap', '1'], ['--bits=1']])
        yield from unlike(f'seed {seed}', served(program, text, *words), 0, text_of([*answers, bank.last()]))


def epochs(program):
    """More calls than an engine takes are answered as one list, also if as many as can come in each round."""
    lines, wanted = stream(1, 150000)
    yield from unlike('150,000 lines', served(program, b''.join(lines)), 0, wanted)
    rng, bank = random.Random(2), Bank()
    lines = [f'{{"proc":"balance","args":[{rng.randrange(ACCOUNTS)}]}}'.encode() + rng.choice([b'\n', b' \n'])
             for _ in range(150000)]
    wanted = text_of([*map(bank.answer, lines), bank.last()])
    yield from unlike('150,000 short lines', served(program, b''.join(lines)), 0, wanted)


def pauses(program):
    """What comes in one piece, line by line or in pieces that end anywhere is answered alike, and each line once it is
    complete."""
    for seed in range(8):
        lines, wanted = stream(seed, 300)
        text = b''.join(lines)
        cuts = [0, *sorted(random.Random(seed).choices(range(len(text)), k=300)), len(text)]
        yield from unlike(f'seed {seed} in one piece', served(program, text), 0, wanted)
        for what, pieces in ('line by line', lines), ('in pieces', [text[i:j] for i, j in zip(cuts, cuts[1:])]):
            with at_work(program) as running:
                found = one_by_one(running, pieces)
                running.stdin.close()
                yield from unlike(f'seed {seed} {what}', ended(running, found + running.stdout.read()), 0, wanted)


def counts(program):
    """Lines with counts tell the calls before them. A few short lines that are written at once are one round."""
    for seed in range(8):
        rng, bank, most_lines, pieces, answers = random.Random(seed), Bank(), 0, [], []
        for rounds in range(1, 100):
            count, piece = rng.randrange(1, 20), b''
            most_lines = max(most_lines, count)
            for _ in range(count):
                if rng.random() < 0.2:
                    named = rng.choice([{}, {'id': rng.randrange(9)}])
                    line, answer = json.dumps({**named, 'counts': True}), {**named, **bank.counts(rounds, most_lines)}
                else:
                    line, answer = short_line_and_answer(rng, bank)
                piece += f'{line}\n'.encode()
                answers.append(answer)
            pieces.append(piece)
        with at_work(program) as running:
            found = one_by_one(running, pieces)
            running.stdin.close()
            wanted = text_of([*answers, bank.last()])
            yield from unlike(f'seed {seed}', ended(running, found + running.stdout.read()), 0, wanted)


def records(program):
    """Lines with records tell them as they are at their place, whatever follows in the same round and in other epochs."""
    for seed, count in ((0, 2000), (1, 2000), (2, 100000)):
        rng, bank, lines, answers = random.Random(seed), Bank(), [], []
        for _ in range(count):
            if rng.random() < 0.2:
                first = rng.randrange(ACCOUNTS + 1)
                asked = [first, rng.randrange(ACCOUNTS - first + 1)]
                line, answer = json.dumps({'records': asked}), bank.records(*asked)
            else:
                line, answer = short_line_and_answer(rng, bank)
            lines.append(line)
            answers.append(answer)
        text = ''.join(f'{line}\n' for line in lines).encode()
        yield from unlike(f'seed {seed}', served(program, text), 0, text_of([*answers, bank.last()]))


def short_line_and_answer(rng, bank):
    """A random line of at most 200 bytes, and the answer to it."""
    while True:
        before = bank.accounts[:], bank.calls, bank.aborted
        line, answer = line_and_answer(rng, bank)
        if len(line.encode()) <= 200:
            return line, answer
        bank.accounts, bank.calls, bank.aborted = before


def closed_input(program):
    """The input ends after each byte of some lines: the last line counts without its end, as far as it goes."""
    text = b'\n'.join(TO_CUT)
    for count in range(len(text) + 1):
        *lines, last = text[:count].split(b'\n')
        yield from without_columns(f'{count} bytes', program, text[:count], [*lines, last] if last else lines)


def no_utf8(program):
    """A line that is no UTF-8 is no JSON text, and the lines around it are answered."""
    lines = [line for other in NO_UTF8 for line in (BALANCE, other)]
    yield from without_columns('all of them', program, b'\n'.join([*lines, BALANCE]), [*lines, BALANCE])
    for line in NO_UTF8:
        yield from without_columns(f'{line!r}', program, line, [line])


def without_columns(what, program, text, lines):
    """Each line of a text is answered as the bank does; at which column one is no JSON text is left open."""
    bank, ran = Bank(), served(program, text)
    ran.stdout = re.sub(rf'({NO_JSON}) [0-9]+'.encode(), rb'\1', ran.stdout)
    yield from unlike(what, ran, 0, text_of([*map(bank.answer, lines), bank.last()]))


def many_clients(program):
    """As many clients as there may be have one bank. The next number is that of no client."""
    rng, bank, lines, answers = random.Random(1), Bank(), [], []
    numbers = [*range(MOST_CLIENTS + 1)] * 3
    rng.shuffle(numbers)
    for client in numbers:
        args = [rng.randrange(ACCOUNTS), rng.randrange(ACCOUNTS), rng.randrange(50)]
        lines.append(json.dumps({'id': client, 'client': client, 'proc': 'transfer', 'args': args}).encode())
        there = client < MOST_CLIENTS
        answers.append(bank.answer(lines[-1]) if there else {'id': client, 'fault': f'there is no client {client}'})
    with tempfile.TemporaryDirectory() as room:
        file = Path(room) / 'bank.json'
        file.write_text(json.dumps({**json.loads(BANK.read_text()), 'clients': [[]] * MOST_CLIENTS}))
        yield from unlike('the clients', served(program, b'\n'.join(lines), file=file), 0, text_of([*answers, bank.last()]))


def many_procedures(program):
    """A line with a wrong number of arguments is answered about as fast as one with the right number."""
    procs = [{'name': f'p{number}', 'args': 0, 'keys': [], 'body': []} for number in range(100000)]
    scenario, took = {'version': 1, 'records': [0], 'procs': procs, 'clients': [[]]}, []
    with tempfile.TemporaryDirectory() as room:
        file = Path(room) / 'scenario.json'
        file.write_text(json.dumps(scenario))
        for args in '', '7':
            text, start = f'{{"client":0,"proc":"p99999","args":[{args}]}}\n'.encode() * 4000, time.monotonic()
            ran = served(program, text, file=file)
            took.append(time.monotonic() - start)
            if ran.returncode or len(ran.stdout.splitlines()) != 4001:
                yield f'args [{args}]: status {ran.returncode}, {len(ran.stdout.splitlines())} lines'
    if took[1] > 2 * took[0] + 1:
        yield f'4,000 lines with a wrong number of arguments take {took[1]:.1f} s, and right ones {took[0]:.1f} s'


def closed_output(program):
    """The output is closed behind some answers: with many lines in flight, before one more line, and before the end of
    the input. Those answers are right, and the service says that it cannot write."""
    lines, wanted = stream(2, 8000)
    for count in 0, 1, 2, 100, 2000:
        begin = b''.join(wanted.splitlines(True)[:count])
        with at_work(program) as running:
            writer = threading.Thread(target=write, args=[running, b''.join(lines)])
            writer.start()
            found = answers_of(running, count)
            running.stdout.close()
            writer.join()
            yield from unlike(f'{count} answers of many', ended(running, found), 1, begin, CANNOT_WRITE)
        for more in lines[count], b'':
            with at_work(program) as running:
                found = one_by_one(running, lines[:count])
                running.stdout.close()
                if more:
                    write(running, more)
                else:
                    running.stdin.close()
                yield from unlike(f'{count} answers, and {more!r}', ended(running, found), 1, begin, CANNOT_WRITE)


def long_line(program):
    """A line of 100 MB is read over, in little memory."""
    ran = called(['bash', '-c', f"(head -c 100000000 /dev/zero; echo; echo '{BALANCE.decode()}') | "
                  '(ulimit -v 300000; exec "$@")', 'bash', program, 'serve', BANK])
    answers = [{'fault': 'the line has more than 65536 bytes'}, {'call': 0, 'committed': [100]}]
    yield from unlike('100 MB', ran, 0, text_of([*answers, {'calls': 1, 'records': [100] * ACCOUNTS}]))


def refused_files(program):
    """A scenario that is refused is explained as `vll explain` does, and one that has calls has its own words. None has
    an answer. Files that cannot be read are tried by `tools/trials files`."""
    with tempfile.TemporaryDirectory() as room:
        file = Path(room) / 'refused.json'
        for text in REFUSED:
            file.write_bytes(text)
            yield from unlike(text.decode(), served(program, BALANCE, file=file), 2, b'', explanation(program, b'', file))
    for path in TOP / 'scenarios/transfer.json', TOP / 'examples/06_blocked_call.json':
        yield from unlike(str(path), served(program, BALANCE, file=path), 2, b'', HAS_CALLS)


def failing_streams(program):
    """Input that cannot be read, and output that is full."""
    for behind, said in (('</', b'vll: serve: read\n' + failure('standard input', errno.EISDIR)),
                         ('<&-', b'vll: serve: read\n' + failure('standard input', errno.EBADF)),
                         ('>/dev/full', b'vll: serve: write\n' + failure('standard output', errno.ENOSPC)),
                         ('>&-', b'vll: serve: write\n' + failure('standard output', errno.EBADF))):
        ran = called(['bash', '-c', f'exec "$@" {behind}', 'bash', program, 'serve', BANK], BALANCE)
        yield from unlike(behind, ran, 1, b'', said)


def other_language(program):
    """The client in Python: ten threads move money, and the total stays."""
    yield from unlike('the client', called([sys.executable, CLIENT, program]), 0, b'1000 transfers, 800 in all accounts\n')


def socket(program):
    """The call of a shell through a unix socket."""
    if not shutil.which('socat'):
        raise Skipped('there is no socat')
    bank = Bank()
    yield from unlike('the script', called([SOCKET, program]), 0, text_of([bank.call('transfer', [0, 1, 30]), bank.last()]))


def service(words, _):
    for trial in (random_streams, epochs, pauses, counts, records, closed_input, no_utf8, many_clients, many_procedures,
                  closed_output, long_line, refused_files, failing_streams, other_language, socket):
        yield trial.__name__.replace('_', ' '), trial(words.program)
