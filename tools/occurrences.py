"""Names what occurs in a scenario, and in its run or its replay, so that it can be counted.

IN_REPLAYS and IN_RUNS are the names that have to occur among the scenarios of some hundred seeds.
"""
from collections import Counter

from generate import chosen_by
from model import OPERATORS, Aborted, Body, Found, claims_of, found_on, make_on, records_of, source_of
from replay_model import Machine

MODES = {'read': 'reading', 'write': 'writing'}
NOT_RUNNING = ['there is no such call', 'it is waiting', 'it is finished']
EVENTS = [
    'enter: opened', 'enter: refused turn open', 'enter: refused no call, there is no such client',
    'enter: refused no call, none is left', 'enter: refused spent', 'enter: refused busy', 'enter: refused out of step',
    'enter: opened by a value that a refusal has left',
    'find: found', 'find: found the same value again', 'find: found another value again',
    'find: refused turn open', 'find: refused no call, there is no such client',
    'find: refused no call, none is left', 'find: refused out of step',
    'claim: granted for reading', 'claim: granted for writing', 'claim: denied for reading',
    'claim: denied for writing', 'claim: refused no turn', 'claim: refused out of step',
    'admit: free', 'admit: free without claims', 'admit: blocked', 'admit: refused no turn',
    'admit: refused out of step',
    'front: run', 'front: refused turn open', 'front: refused idle, there is none',
    'front: refused idle, it is running',
    'scan: run', 'scan: run behind a running call', 'scan: run behind a waiting call', 'scan: refused turn open',
    'scan: refused idle, none is waiting', 'scan: refused idle, each is held back',
    'scan: refused idle, one is held back by places alone',
    'load: loaded', 'load: refused out of step', 'store: stored', 'store: refused out of step, loads are left',
    'store: refused out of step, it was aborted', 'store: refused out of step, all are made',
    'release: released', 'release: refused out of step, loads are left',
    'release: refused out of step, stores are left', 'release: refused out of step, all are made',
    'finish: committed', 'finish: refused turn open', 'finish: refused out of step, loads are left',
    'finish: refused out of step, stores are left', 'finish: refused out of step, releases are left',
    *(f'finish: aborted {reason}' for reason in ('overflow', 'underflow', 'zero divisor', 'code', 'moved')),
    *(f'{word}: refused not running, {why}' for word in ('load', 'store', 'release', 'finish') for why in NOT_RUNNING),
    *(f'{word} while a turn is open' for word in ('find', 'load', 'store', 'release')),
]
ENDS = ['end: a turn is open', 'end: a call is running', 'end: a call is waiting', 'end: all have finished']
MOVES = ['moved to the same record', 'moved to another record', 'moved, and else committed', 'moved, and else aborted']
BODIES = [
    *(f'statement {word}' for word in ('let', 'set', 'if', 'abort', 'reply', 'repeat')),
    *(f'a repeat of {turns}' for turns in ('no turn', 'one turn', 'more turns', '64 turns')), 'a repeat in a repeat',
    *(f'expression {word}' for word in ('number', 'arg', 'key', 'local', *OPERATORS, 'not')),
    *(f'{word} ends a call with overflow' for word in ('add', 'mul')), 'sub ends a call with underflow',
    *(f'{word} ends a call with zero divisor' for word in ('div', 'rem')),
    'a call of 8 replies', 'a call of 8 arguments',
]
KEYS = [
    *(f'key {mode} {at}' for mode in ('read', 'write') for at in ('arg', 'fixed', 'through')), 'a call without claims',
    'a call with a claim for several keys', 'a record of a read and a write key', 'a call of 16 keys',
    'a call of 16 keys and an indirect one among them', 'a call of 32 keys',
    'a call of 32 keys and an indirect one among them', 'a call of more than 16 claims',
    *(f'an indirect key for {mode} by {place}' for mode in MODES.values() for place in ('arg', 'fixed')),
    *(f'an indirect key for {mode} of its source for {other}' for mode in MODES.values() for other in MODES.values()),
    'an indirect key of the record of another key', 'an indirect key of a record of its own',
    'a found value that is a record', 'a found value past every record',
]
MEMBERS = [
    *(f'{member} is {value}' for member in ('cap', 'bits') for value in ('absent', 'one', 'more')),
    *(f'hash is {value}' for value in ('absent', 'modulo', 'spread')), 'limit is absent', 'limit is there',
    'a client without calls', 'no client', 'several clients',
]
TURNS = {0: 'no turn', 1: 'one turn', 64: '64 turns'}
OPTIONS = [f'{option} is {value}' for option in ('--workers', '--cap', '--bits') for value in ('absent', 'one', 'more')]
IN_REPLAYS = [*EVENTS, *ENDS, *MOVES, *BODIES, *KEYS, *MEMBERS, 'schedule is absent', 'schedule is there']
IN_RUNS = [*BODIES, *KEYS, *MEMBERS, *OPTIONS, 'schedule is absent', 'schedule is there']


class Traced(Body):
    """Runs a body, and keeps the names of what was run."""

    def __init__(self, procedure, args, values, found):
        super().__init__(procedure, args, values, found)
        self.names, self.has_ended, self.repeats = [], False, 0

    def value(self, expression):
        word = 'number' if isinstance(expression, int) else expression[0]
        self.names.append(f'expression {word}')
        try:
            return super().value(expression)
        except Aborted as reason:
            if not self.has_ended:
                self.names.append(f'{word} ends a call with {reason}')
            self.has_ended = True
            raise

    def run(self, statements):
        for statement in statements:
            is_repeat = statement[0] == 'repeat'
            self.names.append(f'statement {statement[0]}')
            if is_repeat:
                self.names.append(f'a repeat of {TURNS.get(statement[1], "more turns")}')
                self.names += ['a repeat in a repeat'] * (self.repeats > 0)
            self.repeats += is_repeat
            super().run([statement])
            self.repeats -= is_repeat


def those(names):
    """The names of what holds."""
    return (name for name, holds in names.items() if holds)


def in_body(procedure, args, values, found):
    """What occurs in a call whose body is run on these values."""
    body = Traced(procedure, args, values, found)
    try:
        body.make(procedure['body'])
    except Aborted:
        body.replies = []
    yield from body.names
    yield from those({'a call of 8 replies': len(body.replies) == 8, 'a call of 8 arguments': procedure['args'] == 8})
    keys, records, claims = procedure['keys'], records_of(procedure, args, found), claims_of(procedure, args, found)
    yield from (f'key {mode} {at}' for mode, at, _ in keys)
    yield from those({
        'a call without claims': not claims, 'a call with a claim for several keys': len(claims) < len(keys),
        'a record of a read and a write key':
            len({(record, key[0]) for record, key in zip(records, keys)}) > len(claims),
        f'a call of {len(keys)} keys{" and an indirect one among them" if found else ""}': len(keys) in (16, 32),
        'a call of more than 16 claims': len(claims) > 16})
    if found:
        yield from in_indirect_key(keys, records, found)


def in_indirect_key(keys, records, found):
    """What occurs in the indirect key of a call."""
    place = next(place for place, (_, at, _) in enumerate(keys) if at == 'through')
    mode, _, source = keys[place]
    count = records.count(records[place])
    is_source = records[place] == records[source]
    yield f'an indirect key for {MODES[mode]} by {keys[source][1]}'
    yield from those({
        'a found value that is a record': found.value < found.records,
        'a found value past every record': found.value >= found.records,
        f'an indirect key for {MODES[mode]} of its source for {MODES[keys[source][0]]}': is_source,
        'an indirect key of the record of another key': not is_source and count > 1,
        'an indirect key of a record of its own': not is_source and count == 1})


def size_of(value):
    return 'absent' if value is None else 'one' if int(value) == 1 else 'more'


def in_members(scenario):
    yield from (f'{member} is {size_of(scenario.get(member))}' for member in ('cap', 'bits'))
    yield f'hash is {scenario.get("hash", "absent")}'
    yield from (f'{member} is {"there" if member in scenario else "absent"}' for member in ('limit', 'schedule'))
    clients = scenario['clients']
    yield from those({'no client': not clients, 'a client without calls': [] in clients,
                      'several clients': len(clients) > 1})


def why_no_scan(machine):
    if not machine.waiting():
        return 'none is waiting'
    exact = Machine({**machine.scenario, 'hash': 'modulo', 'bits': len(machine.values)})
    exact.calls = machine.calls
    return 'each is held back' if exact.scan() is None else 'one is held back by places alone'


def detail(machine, event, reason):
    """What stands behind the reason of a refused event, where several things may."""
    word, number = event[0], event[-1]
    if reason == 'no call':
        return ', none is left' if number < len(machine.scripts) else ', there is no such client'
    if reason == 'not running':
        there = number < len(machine.calls)
        return f', it is {machine.calls[number].status}' if there else ', there is no such call'
    if word == 'front' and reason == 'idle':
        return ', it is running' if machine.unfinished() else ', there is none'
    if word == 'scan' and reason == 'idle':
        return f', {why_no_scan(machine)}'
    if word in ('store', 'release', 'finish') and reason == 'out of step':
        return f', {machine.calls[number].out_of_step(word)}'
    return ''


def in_answer(machine, event, answer):
    """What occurs where an event is answered; the machine has taken it."""
    word = event[0]
    if word == 'claim':
        _, is_for_writing = machine.turn.claims[machine.turn.requested - 1]
        yield f'claim: {answer.split()[-1]} for {"writing" if is_for_writing else "reading"}'
    elif word == 'finish':
        yield f'finish: {"committed" if "committed" in answer else answer[len("replied "):].rstrip(" 0123456789")}'
    else:
        yield f'{word}: {answer.split()[0]}'
    if word in ('find', 'load', 'store', 'release') and machine.turn:
        yield f'{word} while a turn is open'
    if answer.startswith('free') and not machine.calls[-1].claims:
        yield 'admit: free without claims'
    if word == 'scan':
        ticket = int(answer.split()[1])
        for status in {machine.calls[earlier].status for earlier in machine.unfinished() if earlier < ticket}:
            yield f'scan: run behind a {status} call'


def in_found(machine, event, reason, left):
    """What becomes of the values that clients have found, where an event is about to be taken or refused.

    The clients whose enter was refused while a value was kept are those of `left`.
    """
    word, client = event[0], event[-1]
    if word not in ('find', 'enter') or client not in machine.found:
        return
    if reason is None and word == 'find':
        is_changed = machine.found[client] != machine.values[machine.next_source(client)]
        yield f'find: found {"another" if is_changed else "the same"} value again'
    elif reason is None and client in left:
        yield 'enter: opened by a value that a refusal has left'
    if reason is None:
        left.discard(client)
    elif word == 'enter':
        left.add(client)


def in_moved(call):
    """What occurs in a call that was aborted as moved."""
    now = Found(call.loaded[source_of(call.procedure, call.args)], call.found.records)
    yield f'moved to {"the same" if now.record == call.found.record else "another"} record'
    body = Body(call.procedure, call.args, call.loaded, call.found)
    try:
        body.run(call.procedure['body'])
        yield 'moved, and else committed'
    except Aborted:
        yield 'moved, and else aborted'


def in_replay(scenario):
    """What occurs in a replay."""
    machine = Machine(scenario)
    left = set()
    yield from in_members(scenario)
    for event in scenario.get('schedule', []):
        reason = machine.refusal(event)
        yield from in_found(machine, event, reason, left)
        if reason is not None:
            yield f'{event[0]}: refused {reason}{detail(machine, event, reason)}'
        else:
            yield from in_answer(machine, event, machine.take(event))
    for call in machine.calls:
        if call.reply is not None:
            yield from in_body(call.procedure, call.args, call.loaded, call.found)
        if call.reply == 'aborted moved':
            yield from in_moved(call)
    unfinished = {machine.calls[ticket].status for ticket in machine.unfinished()}
    yield from (f'end: a call is {status}' for status in sorted(unfinished))
    yield from those({'end: a turn is open': machine.turn,
                      'end: all have finished': machine.calls and not unfinished})


def in_run(scenario, options):
    """What occurs in a run, if each client makes all its calls before the next one."""
    yield from in_members(scenario)
    chosen = chosen_by(options)
    yield from (f'{option} is {size_of(chosen.get(option))}' for option in ('--workers', '--cap', '--bits'))
    procedures = {procedure['name']: procedure for procedure in scenario['procs']}
    records = list(scenario['records'])
    for call in [call for script in scenario['clients'] for call in script]:
        procedure, args = procedures[call['proc']], call['args']
        yield from in_body(procedure, args, dict(enumerate(records)), found_on(records, procedure, args))
        make_on(records, procedure, args)


def counts_of(kind, scenarios):
    """How often each thing occurs in scenarios with the options of their runs; 0 for what has to occur and does not."""
    counts = Counter({name: 0 for name in (IN_REPLAYS if kind == 'replay' else IN_RUNS)})
    for scenario, options in scenarios:
        counts.update(in_replay(scenario) if kind == 'replay' else in_run(scenario, options))
    return counts
