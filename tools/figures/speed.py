#!/usr/bin/env python3
"""Takes the figures of docs/speed.csv and docs/sweep.csv anew, draws them, and writes README.md's rows of them.

    python3 tools/figures/speed.py [--processor WORDS] [compare] [sweep]
    python3 tools/figures/speed.py --scenario NAME       prints a scenario of docs/speed.csv, the same one each time

It builds vll_bench, which is proved before, and runs `vll_bench compare` on each of these scenarios, and on those of
a sweep, with ever fewer hot records; with a word only on these. It is to be run while nothing else runs. The processor
is named as the system names it if WORDS do not. Without gnuplot the pictures stay as they were.

In a scenario 256 clients make 65,536 calls in all, or 16,384 of the long ones, and at most 8 calls wait.
"""
import argparse
import csv
import json
import os
import random
import re
import shutil
import subprocess
from datetime import datetime, timezone
from pathlib import Path

TOP = Path(__file__).resolve().parents[2]
CRATE = TOP / 'crates/vll_bench'
FILES = {'compare': TOP / 'docs/speed.csv', 'sweep': TOP / 'docs/sweep.csv'}
# What vll_bench prints first, and the first line of a file of figures.
PRINTED = ['way', 'threads', 'nanoseconds', 'calls', 'fewest', 'most']
HEAD = ['scenario', 'way', 'threads', 'nanoseconds', 'commit', 'processor', 'date']

RECORDS = 65536
CLIENTS = 256
CALLS = 65536
LONG_CALLS = 16384
CAP = 8
CUSTOMERS = 32768
# The procedures with ten claims read two records each that no call writes; these are the last ones.
TENS = 64
WRITTEN = RECORDS - 2 * TENS
HOT = 10000, 3000, 1000, 300, 100, 30, 10, 3, 1

BUMP = {'name': 'bump', 'args': 1, 'keys': [['write', 'arg', 0]],
        'body': [['set', 0, ['add', ['key', 0], 1]], ['reply', ['key', 0]]]}
TRANSFER = {'name': 'transfer', 'args': 3, 'keys': [['write', 'arg', 0], ['write', 'arg', 1]],
            'body': [['set', 0, ['sub', ['key', 0], ['arg', 2]]], ['set', 1, ['add', ['key', 1], ['arg', 2]]],
                     ['reply', ['key', 0]]]}


def ten(number):
    """It writes eight records that its arguments name, and reads two fixed ones."""
    first = WRITTEN + 2 * number
    body = [['set', i, ['add', ['key', i], {0: ['key', 8], 7: ['key', 9]}.get(i, 1)]] for i in range(8)]
    return {'name': f'ten{number}', 'args': 8,
            'keys': [*(['write', 'arg', i] for i in range(8)), ['read', 'fixed', first], ['read', 'fixed', first + 1]],
            'body': [*body, ['reply', ['key', 0]]]}


def long():
    """It runs 500 nodes, 8 in most statements."""
    turns = [['let', 0, ['sub', ['max', ['local', 0], 1000 + i], ['min', ['local', 0], 7 + i]]] for i in range(61)]
    return {'name': 'long', 'args': 2, 'keys': [['write', 'arg', 0], ['read', 'arg', 1]],
            'body': [['let', 0, ['add', ['key', 0], ['key', 1]]], ['let', 1, ['local', 0]], *turns,
                     ['set', 0, ['min', ['local', 0], 1000000]], ['reply', ['key', 0]]]}


# Of customer N, record 2N holds the savings and record 2N + 1 the balance of the checking account.
SAVINGS, CHECKING = ['key', 0], ['key', 1]
SMALLBANK = [
    {'name': 'balance', 'args': 2, 'keys': [['read', 'arg', 0], ['read', 'arg', 1]],
     'body': [['reply', ['add', SAVINGS, CHECKING]]]},
    {'name': 'deposit_checking', 'args': 2, 'keys': [['write', 'arg', 0]],
     'body': [['set', 0, ['add', ['key', 0], ['arg', 1]]]]},
    # one of its two amounts is 0: what is paid in, and what is taken out
    {'name': 'transact_savings', 'args': 3, 'keys': [['write', 'arg', 0]],
     'body': [['let', 0, ['add', SAVINGS, ['arg', 1]]], ['if', ['less', ['local', 0], ['arg', 2]], [['abort', 1]], []],
              ['set', 0, ['sub', ['local', 0], ['arg', 2]]]]},
    {'name': 'amalgamate', 'args': 3, 'keys': [['write', 'arg', 0], ['write', 'arg', 1], ['write', 'arg', 2]],
     'body': [['set', 2, ['add', ['key', 2], ['add', SAVINGS, CHECKING]]], ['set', 0, 0], ['set', 1, 0]]},
    {'name': 'write_check', 'args': 3, 'keys': [['read', 'arg', 0], ['write', 'arg', 1]],
     'body': [['let', 0, ['less', ['add', SAVINGS, CHECKING], ['arg', 2]]],
              ['set', 1, ['sub', CHECKING, ['add', ['arg', 2], ['local', 0]]]]]},
    {'name': 'send_payment', 'args': 3, 'keys': [['write', 'arg', 0], ['write', 'arg', 1]],
     'body': [['if', ['less', ['key', 0], ['arg', 2]], [['abort', 1]], []],
              ['set', 0, ['sub', ['key', 0], ['arg', 2]]], ['set', 1, ['add', ['key', 1], ['arg', 2]]]]},
]


def smallbank(rng):
    """A quarter of the calls are payments, and as many of each other procedure as of the next."""
    calls = []
    for _ in range(CALLS):
        one, other = rng.sample(range(CUSTOMERS), 2)
        savings, checking, amount = 2 * one, 2 * one + 1, rng.randrange(1, 100)
        calls.append(rng.choices([
            ('balance', [savings, checking]),
            ('deposit_checking', [checking, amount]),
            ('transact_savings', [savings, *rng.sample([0, amount], 2)]),
            ('amalgamate', [savings, checking, 2 * other + 1]),
            ('write_check', [savings, checking, amount]),
            ('send_payment', [checking, 2 * other + 1, amount]),
        ], [15, 15, 15, 15, 15, 25])[0])
    return [10000] * (2 * CUSTOMERS), SMALLBANK, calls


def tens(rng, hot):
    """Calls with ten claims. One is for one of the hot records, if there are any."""
    calls = []
    for _ in range(CALLS):
        keys = [rng.randrange(hot)] if hot else []
        keys += rng.sample(range(hot, WRITTEN), 8 - len(keys))
        calls.append((f'ten{rng.randrange(TENS)}', keys))
    return [0] * WRITTEN + [1] * (RECORDS - WRITTEN), [ten(number) for number in range(TENS)], calls


def transfers(rng):
    calls = [('transfer', [*rng.sample(range(RECORDS), 2), rng.randrange(1, 11)]) for _ in range(CALLS)]
    return [1000000] * RECORDS, [TRANSFER], calls


def long_bodies(rng):
    """No two calls share a record."""
    records = rng.sample(range(RECORDS), 2 * LONG_CALLS)
    return [5] * RECORDS, [long()], [('long', records[i:i + 2]) for i in range(0, 2 * LONG_CALLS, 2)]


# By the name of each, what the pages call it, and what makes its records, its procedures and its calls. Gnuplot wants
# names without a comma.
WORKLOADS = {
    'bodies of 500 nodes': ('bodies of 500 nodes, no two on one record', long_bodies),
    'transfers': ('transfers between two of 65,536 records', transfers),
    'SmallBank': ('SmallBank, six procedures, 32,768 customers', smallbank),
    'ten claims': ('ten claims of 65,536 records, hardly a conflict', lambda rng: tens(rng, 0)),
    'ten claims with one hot': ('ten claims, one of them among ten hot records', lambda rng: tens(rng, 10)),
    'bump of one record': ('one statement, all calls on one record', lambda _: ([0], [BUMP], [('bump', [0])] * CALLS)),
}


def scenario(name):
    """The scenario of this name, or that of a sweep with so many hot records, as JSON text."""
    records, procs, calls = WORKLOADS.get(name, ('', lambda rng: tens(rng, name)))[1](random.Random(name))
    made = [{'proc': proc, 'args': args} for proc, args in calls]
    clients = [made[first::CLIENTS] for first in range(CLIENTS)]
    return json.dumps({'version': 1, 'records': records, 'procs': procs, 'clients': clients, 'cap': CAP},
                      separators=(',', ':'))


def rows_below(head, text):
    """The rows below this head, which has to be there."""
    first, *rows = csv.reader(text.splitlines())
    if first != head or any(len(row) != len(head) for row in rows):
        raise ValueError(f'these are no rows of {",".join(head)}')
    return rows


def with_rows(readme, text):
    """The text of README.md with the figures of a file in its table, which has a row for each scenario: a mutex, locks and
    a lock table at their best, `Client::call` and workers on four threads."""
    found = {}
    for scenario, way, threads, nanoseconds, *_ in rows_below(HEAD, text):
        found.setdefault(scenario, {}).setdefault(way, {})[threads] = int(nanoseconds)
    for scenario, ways in found.items():
        best = *(min(ways[way].values()) for way in ('mutex', 'locks', 'table')), ways['call']['4'], ways['engine']['4']
        words = WORKLOADS[scenario][0]
        row = ' | '.join(['', words, *(f'{nanoseconds:,}' for nanoseconds in best), '']).strip()
        readme, count = re.subn(rf'^\| {re.escape(words)} \|.*$', row, readme, flags=re.MULTILINE)
        if count != 1:
            raise ValueError(f'README.md has {count} rows of: {words}')
    return readme


def processor():
    """How many processors there are, and the name of the first one."""
    found = re.search(r'^model name\s*:\s*(.*)$', Path('/proc/cpuinfo').read_text(), re.MULTILINE)
    return f'{os.cpu_count()} x {found[1] if found else "unknown"}'


def commit():
    """The commit of the sources, with a + if they have changed since."""
    def git(*words):
        return subprocess.run(['git', '-C', str(TOP), *words], check=True, capture_output=True, text=True).stdout
    return git('rev-parse', '--short', 'HEAD').strip() + ('+' if git('status', '--porcelain', 'crates') else '')


def figures_of(what):
    """The rows that vll_bench prints of a sweep, or of all scenarios, each with the scenario's name."""
    for name in WORKLOADS if what == 'compare' else HOT:
        print(name, flush=True)
        printed = subprocess.check_output([CRATE / 'out/vll_bench', 'compare'], input=scenario(name), text=True)
        for row in rows_below(PRINTED, printed):
            yield [name, *row[:3]]


def main():
    parser = argparse.ArgumentParser(description='Measures the figures of docs/speed.csv and docs/sweep.csv again.')
    parser.add_argument('--processor', default=processor())
    parser.add_argument('--scenario', choices=WORKLOADS)
    parser.add_argument('what', nargs='*', metavar='compare|sweep')
    words = parser.parse_args()
    if words.scenario:
        print(scenario(words.scenario))
        return
    if not set(words.what) <= set(FILES):
        parser.error(f'there are {" and ".join(FILES)}')
    subprocess.run(['rt', 'run'], cwd=CRATE, check=True, stdout=subprocess.DEVNULL)
    origin = [commit(), words.processor, f'{datetime.now(timezone.utc):%Y-%m-%d}']
    for what in words.what or FILES:
        rows = [[*row, *origin] for row in figures_of(what)]
        with open(FILES[what], 'w', newline='', encoding='utf-8') as file:
            csv.writer(file, lineterminator='\n').writerows([HEAD, *rows])
    readme = TOP / 'README.md'
    readme.write_text(with_rows(readme.read_text(), FILES['compare'].read_text()))
    if shutil.which('gnuplot'):
        subprocess.run(['gnuplot', 'tools/figures/speed.gnuplot'], cwd=TOP, check=True)
    else:
        print('not drawn: there is no gnuplot')


if __name__ == '__main__':
    main()
