#!/usr/bin/env python3
"""The machine of a replay: takes the steps of a schedule, and tells what 'vll replay' has to print.

    python3 tools/replay_model.py SCENARIO      prints that, if the program takes the scenario

It is written from docs/SCENARIO.md and docs/HEADLINE.md, and uses nothing of the program.
"""
import json
import sys
from itertools import zip_longest

from model import Found, Unlawful, claims_of, lines_of, make, source_of

FOR_WRITING = 1 << 32
SPREAD = 11400714819323198485
DEFAULTS = {'cap': 1024, 'bits': 4096, 'hash': 'modulo'}


class Call:
    """A call that is entering or has entered, and how far it is."""
    status = 'entering'
    is_granted = True
    requested = stored = released = 0
    reply = values = None

    def __init__(self, client, procedure, args, found):
        self.client, self.procedure, self.args, self.found = client, procedure, args, found
        self.claims = claims_of(procedure, args, found)
        self.written = [record for record, is_for_writing in self.claims if is_for_writing]
        self.loaded = {}

    def start(self):
        self.status = 'running'
        self.run_if_loaded()

    def run_if_loaded(self):
        """Runs the body once no load is left."""
        if len(self.loaded) == len(self.claims):
            self.reply, self.values = make(self.procedure, self.args, self.loaded, self.found)

    def has_aborted(self):
        return self.reply is not None and self.reply.startswith('aborted')

    def has_loads_left(self):
        return len(self.loaded) < len(self.claims)

    def has_stores_left(self):
        return not self.has_aborted() and self.stored < len(self.written)

    def has_releases_left(self):
        return self.released < len(self.claims)

    def out_of_step(self, word):
        """Why a running call has something else to do than a load, a store, a release or to finish, if it has."""
        if word == 'load':
            return None if self.has_loads_left() else 'all are made'
        if self.has_loads_left():
            return 'loads are left'
        if word == 'store':
            return None if self.has_stores_left() else 'it was aborted' if self.has_aborted() else 'all are made'
        if self.has_stores_left():
            return 'stores are left'
        if word == 'release':
            return None if self.has_releases_left() else 'all are made'
        return 'releases are left' if self.has_releases_left() else None


class Machine:
    """Takes events one by one: `refusal` says why an event is refused now, and `take` performs one that is not."""

    def __init__(self, scenario):
        self.scenario = scenario
        self.procedures = {procedure['name']: procedure for procedure in scenario['procs']}
        self.scripts = scenario['clients']
        chosen = {**DEFAULTS, **scenario}
        self.cap, self.bits, self.hash = chosen['cap'], chosen['bits'], chosen['hash']
        self.limit = scenario.get('limit', max(1, sum(map(len, self.scripts))))
        self.values = list(scenario['records'])
        self.pairs = [0] * len(self.values)
        self.entered = [0] * len(self.scripts)
        # what each client has found for its next call
        self.found = {}
        self.calls = []
        self.turn = None

    def has_call_left(self, client):
        return client < len(self.scripts) and self.entered[client] < len(self.scripts[client])

    def next_call(self, client):
        """The procedure and the arguments of a client's next call."""
        asked = self.scripts[client][self.entered[client]]
        return self.procedures[asked['proc']], asked['args']

    def next_source(self, client):
        """The record by whose value the indirect key of a client's next call is found, if it has such a key."""
        return source_of(*self.next_call(client))

    def is_ready(self, client):
        """Whether a client's next call has no indirect key, or has found a value for it."""
        return self.next_source(client) is None or client in self.found

    def is_turn_of(self, client):
        return self.turn is not None and self.turn.client == client

    def is_running(self, ticket):
        return ticket < len(self.calls) and self.calls[ticket].status == 'running'

    def waiting(self):
        return sum(call.status == 'waiting' for call in self.calls)

    def unfinished(self):
        """The tickets of the calls that have not finished, the lowest first."""
        return [ticket for ticket, call in enumerate(self.calls) if call.status != 'finished']

    def place(self, record):
        if self.hash == 'spread':
            record = (record * SPREAD) % (1 << 64) // (1 << 32)
        return record % self.bits

    def meets(self, one, other):
        """Whether a claim of the one and a claim of the other have the same place, and one is for writing."""
        return any(self.place(left) == self.place(right) and (left_writes or right_writes)
                   for left, left_writes in one.claims for right, right_writes in other.claims)

    def front(self):
        """The ticket that front starts, if there is one."""
        for ticket in self.unfinished():
            return ticket if self.calls[ticket].status == 'waiting' else None
        return None

    def scan(self):
        """The ticket that the contention analysis finds, if it finds one."""
        earlier = []
        for ticket in self.unfinished():
            call = self.calls[ticket]
            if call.status == 'waiting' and not any(self.meets(call, other) for other in earlier):
                return ticket
            earlier.append(call)
        return None

    def refusals(self, word, number):
        """The reasons for which an event is refused, in their order, each with whether it holds now."""
        if word in ('enter', 'front', 'scan', 'finish'):
            yield 'turn open', self.turn is not None
        if word == 'find':
            yield 'turn open', self.is_turn_of(number)
        if word in ('claim', 'admit'):
            yield 'no turn', self.turn is None
        if word in ('load', 'store', 'release', 'finish'):
            yield 'not running', not self.is_running(number)
        if word == 'enter':
            yield 'no call', not self.has_call_left(number)
            yield 'spent', len(self.calls) == self.limit
            yield 'busy', self.waiting() == self.cap
            yield 'out of step', not self.is_ready(number)
        elif word == 'find':
            yield 'no call', not self.has_call_left(number)
            yield 'out of step', self.next_source(number) is None
        elif word == 'claim':
            yield 'out of step', self.turn.requested == len(self.turn.claims)
        elif word == 'admit':
            yield 'out of step', self.turn.requested < len(self.turn.claims)
        elif word == 'front':
            yield 'idle', self.front() is None
        elif word == 'scan':
            yield 'idle', self.scan() is None
        else:
            yield 'out of step', self.calls[number].out_of_step(word) is not None

    def refusal(self, event):
        """The first reason for which an event is refused, if there is one."""
        word, number = event[0], event[-1]
        return next((reason for reason, holds in self.refusals(word, number) if holds), None)

    def take(self, event):
        """Takes an event that is not refused, and answers what is printed of it."""
        return getattr(self, f'take_{event[0]}')(*event[1:])

    def take_find(self, client):
        value = self.found[client] = self.values[self.next_source(client)]
        return f'found {value}'

    def take_enter(self, client):
        procedure, args = self.next_call(client)
        value = self.found.pop(client, None)
        self.entered[client] += 1
        self.turn = Call(client, procedure, args, None if value is None else Found(value, len(self.values)))
        return 'opened'

    def take_claim(self):
        record, is_for_writing = self.turn.claims[self.turn.requested]
        old = self.pairs[record]
        is_granted = old == 0 if is_for_writing else old < FOR_WRITING
        self.pairs[record] += FOR_WRITING if is_for_writing else 1
        self.turn.requested += 1
        self.turn.is_granted = self.turn.is_granted and is_granted
        return f'claimed {old} {"granted" if is_granted else "denied"}'

    def take_admit(self):
        call, self.turn = self.turn, None
        ticket = len(self.calls)
        self.calls.append(call)
        if call.is_granted:
            call.start()
            return f'free {ticket}'
        call.status = 'waiting'
        return f'blocked {ticket}'

    def take_front(self):
        return self.started(self.front())

    def take_scan(self):
        return self.started(self.scan())

    def started(self, ticket):
        self.calls[ticket].start()
        return f'run {ticket}'

    def take_load(self, ticket):
        call = self.calls[ticket]
        record, _ = call.claims[len(call.loaded)]
        value = call.loaded[record] = self.values[record]
        call.run_if_loaded()
        return f'loaded {value}'

    def take_store(self, ticket):
        call = self.calls[ticket]
        record = call.written[call.stored]
        self.values[record] = call.values[record]
        call.stored += 1
        return 'stored'

    def take_release(self, ticket):
        call = self.calls[ticket]
        record, is_for_writing = call.claims[call.released]
        old = self.pairs[record]
        self.pairs[record] -= FOR_WRITING if is_for_writing else 1
        call.released += 1
        return f'released {old}'

    def take_finish(self, ticket):
        self.calls[ticket].status = 'finished'
        return f'replied {self.calls[ticket].reply}'

    def step(self, event):
        """Takes an event or refuses it, and answers what is printed of it."""
        reason = self.refusal(event)
        return self.take(event) if reason is None else f'refused {reason}'

    def outcome(self):
        """The lines of what stands: the calls that have entered, and the records."""
        for ticket, call in enumerate(self.calls):
            told = call.reply if call.status == 'finished' else call.status
            yield f'call {ticket} client {call.client} {told}'
        for record, (value, pair) in enumerate(zip(self.values, self.pairs)):
            yield f'record {record} value {value} pair {pair}'


def replay_text(scenario):
    """What a replay of a scenario prints."""
    machine = Machine(scenario)
    lines = [f'{number} {machine.step(event)}' for number, event in enumerate(scenario.get('schedule', []))]
    return ''.join(f'{line}\n' for line in [*lines, *machine.outcome()])


def judge(scenario, text):
    """Raises Unlawful where a text is not what the replay of a scenario prints."""
    wanted = replay_text(scenario)
    if text != wanted:
        for number, (told, line) in enumerate(zip_longest(lines_of(text), lines_of(wanted)), start=1):
            if told != line:
                raise Unlawful(f'line {number} is {told!r}, and has to be {line!r}')


if __name__ == '__main__':
    if len(sys.argv) != 2:
        sys.exit('usage: python3 tools/replay_model.py SCENARIO')
    with open(sys.argv[1], encoding='utf-8') as scenario_file:
        sys.stdout.write(replay_text(json.load(scenario_file)))
