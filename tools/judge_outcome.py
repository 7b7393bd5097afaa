#!/usr/bin/env python3
"""Judges the outcome of a run whose calls may enter in more than one order.

    python3 tools/judge_outcome.py SCENARIO OUTCOME

SCENARIO is the file that 'vll run' read, and OUTCOME what it printed. The outcome is lawful where it is that of the
calls made one at a time in the order in which it lists them: the tickets are 0, 1, 2 and so on; the lines of each
client are the calls of its script, in its order, and none is left out; each reply is what its call answers then; and
the records are those at the end, each with the pair word 0. A call with an indirect key may also be aborted as moved,
where it can have found an earlier value of its source (see Run.judge_find). What a call does is worked out from
docs/SCENARIO.md and docs/HEADLINE.md, and nothing of the program is used.

The first thing that is not lawful is printed, with status 1.
"""
import json
import re
import sys
from bisect import bisect_right
from pathlib import Path

from model import Unlawful, found_on, lines_of, make_on, records_of, source_of

CALL_LINE = re.compile(r'call (0|[1-9][0-9]*) client (0|[1-9][0-9]*) (.*)')
MOVED = 'aborted moved'


class Rising:
    """A value that changes at rising indexes, and what it was at each index."""

    def __init__(self, opening=0):
        self.starts = [0]
        self.values = [opening]

    def change(self, index, value):
        self.starts.append(index)
        self.values.append(value)

    def at(self, index):
        return self.values[bisect_right(self.starts, index) - 1]

    def first(self, index, is_wanted):
        """The first index from this one on at which the value is one that is wanted, if there is one."""
        for number in range(bisect_right(self.starts, index) - 1, len(self.starts)):
            if is_wanted(self.values[number]):
                return max(index, self.starts[number])
        return None


class Run:
    """Makes the calls of a scenario one at a time, in the order of an outcome, and judges its lines."""

    def __init__(self, scenario):
        self.procedures = {procedure['name']: procedure for procedure in scenario['procs']}
        self.scripts = scenario['clients']
        self.records = list(scenario['records'])
        self.made = [0] * len(self.scripts)
        # for each client the ticket of its last call
        self.last = {}
        # for each record what it holds before the call of each ticket
        self.held = {}
        # for each source, by tickets: before which ticket's call, at least, stood what was found of it by then
        self.found = {}

    def held_by(self, record):
        return self.held.setdefault(record, Rising(self.records[record]))

    def judge_call(self, ticket, line):
        """Makes the call that a line tells of, the next one of its client, and judges the line."""
        told = CALL_LINE.fullmatch(line)
        if not told:
            raise Unlawful(f'the line "{line}" is not that of call {ticket}')
        if int(told[1]) != ticket:
            raise Unlawful(f'the line "{line}" is in the place of call {ticket}')
        client = int(told[2])
        if client >= len(self.scripts):
            raise Unlawful(f'"{line}": there is no client {client}')
        if self.made[client] == len(self.scripts[client]):
            raise Unlawful(f'"{line}": client {client} has {self.made[client]} calls, and all have entered before')
        call = self.scripts[client][self.made[client]]
        self.made[client] += 1
        procedure, args = self.procedures[call['proc']], call['args']
        source = source_of(procedure, args)
        has_moved = source is not None and told[3] == MOVED
        if source is not None:
            self.judge_find(ticket, client, source, has_moved, line)
        reply = MOVED if has_moved else self.make(ticket, procedure, args)
        if told[3] != reply:
            asked = ' '.join([call['proc'], *map(str, args)])
            raise Unlawful(f'"{line}": the reply of {asked} is {reply} in this order')
        self.last[client] = ticket

    def make(self, ticket, procedure, args):
        """Makes a call whose indirect key is found by what its source holds now, and answers the reply."""
        used = set(records_of(procedure, args, found_on(self.records, procedure, args)))
        before = {record: (self.held_by(record), self.records[record]) for record in used}
        reply = make_on(self.records, procedure, args)
        for record, (held, value) in before.items():
            if self.records[record] != value:
                held.change(ticket + 1, self.records[record])
        return reply

    def judge_find(self, ticket, client, source, has_moved, line):
        """Judges whether a call with an indirect key can have found what its line says that it has.

        The engine loads the value of the source before the call enters, and no claim holds that value fast. Calls
        that have entered by then and write the source may have stored it or not, those of the same client too, since a
        call need not have ended before the next one enters. They store it in the order of their tickets. So what is
        found is what the source held before the call of some ticket, not above the call's own. If that is what the
        source holds right before the call itself, the call is made with it; by any other value it is aborted as moved,
        and changes nothing. The line says which is meant: no body has this reason.

        The ticket before which the value stood only rises from one find of a source to the next one. A client makes a
        find after its previous call has entered, and before its call enters; so the find comes after those of all calls
        that entered no later than that previous one. Of each find the lowest ticket is kept that explains its line,
        since a lower one leaves more to the finds behind it: if these cannot be explained with it, they cannot at all.
        """
        now = self.records[source]
        found = self.found.setdefault(source, Rising())
        least = found.at(self.last[client]) if client in self.last else 0
        first = self.held_by(source).first(least, lambda value: (value != now) == has_moved)
        if first is None:
            raise Unlawful(f'"{line}": record {source} held {now} all the time in which the call can have found it')
        if first > found.values[-1]:
            found.change(ticket, first)

    def judge_end(self, lines):
        """Judges the lines behind those of the calls."""
        for client, script in enumerate(self.scripts):
            if self.made[client] < len(script):
                raise Unlawful(f'client {client} has {len(script)} calls, and {self.made[client]} of them are there')
        ends = [f'record {record} value {value} pair 0' for record, value in enumerate(self.records)]
        for told, end in zip(lines, ends):
            if told != end:
                raise Unlawful(f'"{told}" is in the place of "{end}"')
        if len(lines) != len(ends):
            raise Unlawful(f'there are {len(lines)} lines of {len(ends)} records')


def judge(scenario, text):
    """Judges an outcome by making its calls in its order; raises Unlawful where it is not theirs."""
    run = Run(scenario)
    lines = lines_of(text)
    calls = sum(line.startswith('call ') for line in lines)
    for ticket, line in enumerate(lines[:calls]):
        run.judge_call(ticket, line)
    run.judge_end(lines[calls:])


if __name__ == '__main__':
    if len(sys.argv) != 3:
        sys.exit('usage: python3 tools/judge_outcome.py SCENARIO OUTCOME')
    try:
        judge(json.loads(Path(sys.argv[1]).read_bytes()), Path(sys.argv[2]).read_bytes().decode())
    except Unlawful as unlawful:
        print(f'{sys.argv[2]}: {unlawful}')
        sys.exit(1)
