#!/usr/bin/env python3
"""Tests the judges, the machine of replays, and the random scenarios by which the program is tested.

    python3 tools/test_tools.py
"""
import random
import re
import unittest
from collections import Counter
from functools import lru_cache
from unittest import mock

import judge_outcome
import replay_model
from generate import SIZES, scenario_of
from model import OPERATORS, Unlawful, depth_of, make_on, nodes_of, source_of
from occurrences import counts_of
from replay_model import replay_text
from wrong_machines import WRONG, WRONG_CALLS, WRONG_OPERATORS

SEEDS = range(300)


def is_unlawful(scenario, text, judge=judge_outcome.judge):
    try:
        judge(scenario, text)
    except Unlawful:
        return True
    return False


@lru_cache(maxsize=None)
def made(kind):
    """The scenarios of all seeds, with the options of their runs."""
    return [scenario_of(kind, seed, SIZES[kind]) for seed in SEEDS]


class AnyRun:
    """Makes the calls of a scenario in some order that keeps each client's own, and prints the outcome of that.

    A client finds what its call needs after its previous call has entered. A source that was found is in a state from
    before one of the calls that have entered by then, and no earlier one than when it was found before.
    """

    def __init__(self, scenario, rng):
        self.scenario = scenario
        self.rng = rng
        self.procedures = {procedure['name']: procedure for procedure in scenario['procs']}
        self.made = Counter()
        self.found = {}
        # the records before each call, and for each source up to which of these lists it was found
        self.states = [list(scenario['records'])]
        self.reached = Counter()

    def find(self, client, procedure, args):
        source = source_of(procedure, args)
        if source is not None:
            self.reached[source] = self.rng.randint(self.reached[source], len(self.states) - 1)
            self.found[client] = self.value(source)

    def value(self, source):
        return self.states[self.reached[source]][source]

    def enter(self, client, procedure, args):
        self.made[client] += 1
        self.states.append(list(self.states[-1]))
        return make_on(self.states[-1], procedure, args, self.found.pop(client, None))

    def text(self):
        scripts = self.scenario['clients']
        # each client finds and enters in turn
        moments = [client for client, script in enumerate(scripts) for _ in script for _ in range(2)]
        self.rng.shuffle(moments)
        lines = []
        for at, client in enumerate(moments):
            call = scripts[client][self.made[client]]
            procedure, args = self.procedures[call['proc']], call['args']
            if moments[:at].count(client) % 2 == 0:
                self.find(client, procedure, args)
            else:
                lines.append(f'call {len(lines)} client {client} {self.enter(client, procedure, args)}\n')
        records = enumerate(self.states[-1])
        return ''.join(lines + [f'record {record} value {value} pair 0\n' for record, value in records])


def doctored(text, rng):
    """Wrong texts: a changed byte, a wrong number, a missing line, one with fitting tickets behind it, a doubled and a
    swapped line, a call without a reply, and wrong ends."""
    lines = text.splitlines(keepends=True)
    for number, line in enumerate(lines):
        before, behind = ''.join(lines[:number]), ''.join(lines[number + 1:])
        at = rng.randrange(len(line) - 1)
        other = rng.choice([letter for letter in '0123456789 acdeglnr' if letter != line[at]])
        yield before + line[:at] + other + line[at + 1:] + behind
        words = line.split()
        at = rng.choice([at for at, word in enumerate(words) if word.isdigit()])
        words[at] = str(int(words[at]) + rng.choice([1, 2, 1 << 32]))
        yield before + ' '.join(words) + '\n' + behind
        yield before + behind
        yield before + re.sub(r'call (\d+)', lambda found: f'call {int(found[1]) - 1}', behind)
        yield before + line + line + behind
        yield before + re.sub('(committed|aborted).*', 'waiting', line) + behind
        yield ''.join([*lines[:number][:-1], line, *lines[:number][-1:], behind])
    yield from (text[:-1], f'{text} ', text.replace('\n', '\r\n', 1), f'\ufeff{text}', '')


VIA = {'name': 'via', 'args': 1, 'keys': [['read', 'arg', 0], ['write', 'through', 0]],
       'body': [['set', 1, ['add', ['key', 1], 1]], ['reply', ['key', 1]]]}
BUMP = {'name': 'bump', 'args': 1, 'keys': [['write', 'arg', 0]],
        'body': [['set', 0, ['add', ['key', 0], 1]], ['reply', ['key', 0]]]}
# Replies what the record has held.
SET = {'name': 'set', 'args': 2, 'keys': [['write', 'arg', 0]], 'body': [['reply', ['key', 0]], ['set', 0, ['arg', 1]]]}

# Calls of clients, each with its words and '|' between those of two clients. Then outcomes on the records 1, 10 and 20:
# the client and the reply of each call, what the records are at the end, and whether that is lawful.
FINDS = {
    # A call is moved if its source held another value.
    'via 0 | bump 0': [
        ('0 committed 11, 1 committed 2', '2 11 20', True), ('0 aborted moved, 1 committed 2', '2 10 20', False),
        ('0 committed 21, 1 committed 2', '2 10 21', False), ('1 committed 2, 0 committed 21', '2 10 21', True),
        ('1 committed 2, 0 aborted moved', '2 10 20', True), ('1 committed 2, 0 aborted moved', '2 10 21', False),
        ('1 committed 2, 0 aborted moved', '2 11 20', False), ('1 committed 2, 0 committed 11', '2 11 20', False),
        ('1 aborted moved, 0 committed 11', '1 11 20', False), ('1 aborted moved, 0 aborted moved', '1 10 20', False)],
    # Calls of one client need not have ended.
    'bump 0, via 0': [
        ('0 committed 2, 0 committed 21', '2 10 21', True), ('0 committed 2, 0 aborted moved', '2 10 20', True)],
    # A source that is as before has not moved; it may have been found meanwhile.
    'set 0 2, set 0 1 | via 0': [
        ('0 committed 1, 0 committed 2, 1 committed 11', '1 11 20', True),
        ('0 committed 1, 0 committed 2, 1 aborted moved', '1 10 20', True),
        ('0 committed 1, 0 committed 2, 1 committed 21', '1 10 21', False)],
    'set 0 1, set 0 1 | via 0': [
        ('0 committed 1, 0 committed 1, 1 committed 11', '1 11 20', True),
        ('0 committed 1, 0 committed 1, 1 aborted moved', '1 10 20', False)],
    # Finds come one after the other.
    'via 0, via 0 | bump 0': [
        ('1 committed 2, 0 committed 21, 0 committed 22', '2 10 22', True),
        ('1 committed 2, 0 aborted moved, 0 committed 21', '2 10 21', True),
        ('1 committed 2, 0 aborted moved, 0 aborted moved', '2 10 20', True),
        ('1 committed 2, 0 committed 21, 0 aborted moved', '2 10 21', False)],
    # If client 2 has entered a call behind the one that has found 2, it no longer finds 1.
    'via 0 | bump 0 | bump 1, via 0': [
        ('1 committed 2, 0 committed 21, 2 committed 11, 2 committed 22', '2 11 22', True),
        ('1 committed 2, 0 committed 21, 2 committed 11, 2 aborted moved', '2 11 21', False),
        ('2 committed 11, 1 committed 2, 0 committed 21, 2 aborted moved', '2 11 21', True)],
    'via 0 | bump 0 | via 0': [('1 committed 2, 0 committed 21, 2 aborted moved', '2 10 21', True)],
}

# Runs that find what no source has held, or what it holds no longer.
WRONG_FINDS = {
    'a find tells 1 more than the source holds': lambda self, source: (self.states[-1][source] + 1) % (1 << 64),
    'a find loads the record in front of the source': lambda self, source: self.states[-1][source - 1],
    'a find loads the opening records, or the present ones': lambda self, source: (
        self.states[0 if self.rng.random() < 0.5 else -1][source]),
}


class Judges(unittest.TestCase):

    def test_doctored_texts_are_unlawful(self):
        rng = random.Random(2)
        runs = [scenario_of('run', seed, 12)[0] for seed in range(30)]
        texts = [(scenario, AnyRun(scenario, rng).text(), judge_outcome.judge) for scenario in runs]
        texts += [(scenario, replay_text(scenario), replay_model.judge) for scenario, _ in made('replay')[:3]]
        for scenario, text, judge in texts:
            self.assertFalse(is_unlawful(scenario, text, judge))
            for wrong in doctored(text, rng):
                with self.subTest(wrong):
                    self.assertTrue(wrong == text or is_unlawful(scenario, wrong, judge))

    def test_finds(self):
        for calls, rows in FINDS.items():
            clients = [[{'proc': call.split()[0], 'args': [int(word) for word in call.split()[1:]]}
                        for call in client.split(',')] for client in calls.split('|')]
            scenario = {'records': [1, 10, 20], 'procs': [VIA, BUMP, SET], 'clients': clients}
            for told, ends, is_lawful in rows:
                text = ''.join(f'call {ticket} client {line}\n' for ticket, line in enumerate(told.split(', ')))
                text += ''.join(f'record {record} value {end} pair 0\n' for record, end in enumerate(ends.split()))
                with self.subTest(text):
                    self.assertEqual(is_unlawful(scenario, text), not is_lawful)

    def test_wrong_runs_are_found_out(self):
        """By runs of calls with an indirect key that do these one thing wrong."""
        scenarios = [scenario_of('run', seed, 12)[0] for seed in SEEDS]
        changes = {what: mock.patch.object(*change) for what, change in WRONG_CALLS.items()}
        changes.update((what, mock.patch.object(AnyRun, 'value', value)) for what, value in WRONG_FINDS.items())
        for what, change in changes.items():
            rng = random.Random(3)
            with change:
                texts = [AnyRun(scenario, rng).text() for scenario in scenarios]
            with self.subTest(what):
                self.assertTrue(any(map(is_unlawful, scenarios, texts)))


class RandomScenarios(unittest.TestCase):

    def test_each_thing_occurs(self):
        for kind in SIZES:
            self.assertEqual([name for name, count in counts_of(kind, made(kind)).items() if count == 0], [], kind)
        bodies = [procedure['body'] for scenario, _ in made('replay') for procedure in scenario['procs']]
        self.assertEqual((max(map(nodes_of, bodies)), max(map(depth_of, bodies))), (1024, 32))

    def test_wrong_machines_are_found_out(self):
        replays = [(scenario, replay_text(scenario)) for scenario, _ in made('replay')]
        changes = {what: mock.patch.object(*change) for what, change in WRONG.items()}
        changes.update((word, mock.patch.dict(OPERATORS, {word: wrong})) for word, wrong in WRONG_OPERATORS.items())
        for what, change in changes.items():
            with self.subTest(what), change:
                self.assertTrue(any(replay_text(scenario) != text for scenario, text in replays))


if __name__ == '__main__':
    unittest.main()
