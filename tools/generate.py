"""Makes random scenarios, the same ones for the same kind, seed and size.

One of a replay has a schedule of up to so many events as its size says, mostly ones that can be taken; one of a run or
a trace has up to so many calls, and options of `vll run`. tools/random_tests runs them, and keeps the text of one that fails.

Of three seeds that follow each other one has procedures with indirect keys, and finds in its schedule. Of four
one is of version 2.
"""
import json
import random

from random_procedures import MOST_KEYS, any_call, any_number, any_procedures, become_version_two
from replay_model import Machine

SIZES = {'replay': 240, 'run': 60, 'trace': 60}
CLIENT_WORDS = ['enter', 'find']
TICKET_WORDS = ['load', 'store', 'release', 'finish']
LARGEST = 4294967295
# Enough draws to find an event that can be taken, if there is one.
TRIES = 20

# Weights of entering, starting and the steps of running calls: a schedule is made of phases, each with a row of these.
PHASES = [dict(zip(['enter', 'claim', 'admit', 'front', 'scan', 'step'], weights)) for weights in (
    [4, 8, 8, 1, 1, 4], [8, 8, 8, 0, 0, 1], [2, 4, 4, 0, 2, 12], [0, 1, 1, 2, 0, 8], [4, 6, 6, 0, 3, 2])]

# What a refused event is drawn for: each of the reasons of each event, those that seldom hold more often.
REFUSALS = [
    ('enter', 'turn open'), ('enter', 'no call'), ('enter', 'spent'), ('enter', 'busy'),
    ('claim', 'no turn'), ('claim', 'out of step'), ('admit', 'no turn'), ('admit', 'out of step'),
    ('front', 'turn open'), ('front', 'idle'), ('scan', 'turn open'), ('scan', 'idle'), ('finish', 'turn open'),
    *((word, 'not running') for word in TICKET_WORDS),
    *((word, 'out of step') for word in TICKET_WORDS * 4),
]

# The same where procedures have indirect keys.
FIND_REFUSALS = [
    *REFUSALS, *[('find', 'turn open')] * 3, ('find', 'no call'), *[('find', 'out of step')] * 2,
    *[('enter', 'out of step')] * 3,
]


def any_event(rng, machine, word):
    """An event of this word, with the number of a client or a ticket where it needs one."""
    if word in CLIENT_WORDS:
        clients = len(machine.scripts)
        return [word, rng.randrange(clients) if clients and rng.random() < 0.9 else rng.choice([clients, LARGEST])]
    if word in TICKET_WORDS:
        tickets = len(machine.calls)
        recent = range(max(0, tickets - 8), tickets)
        numbers = [*machine.unfinished(), *recent] if rng.random() < 0.9 else [tickets, tickets + 1, LARGEST]
        return [word, rng.choice(numbers or [0])]
    return [word]


def has_indirect_key(scenario):
    return any(at == 'through' for procedure in scenario['procs'] for _, at, _ in procedure['keys'])


def lawful_event(rng, machine, phase):
    """An event that can be taken, if one is found."""
    words = ['claim', 'admit', 'step'] if machine.turn else ['enter', 'front', 'scan', 'step']
    for word in rng.choices(words, [phase[word] for word in words], k=TRIES):
        if word == 'step':
            running = [ticket for ticket in machine.unfinished() if machine.is_running(ticket)]
            ticket = rng.choice(running) if running else None
            steps = [[word, ticket] for word in TICKET_WORDS if running and machine.refusal([word, ticket]) is None]
            event = steps[0] if steps else None
        else:
            event = any_event(rng, machine, word)
        reason = machine.refusal(event) if event else None
        if word == 'enter' and reason == 'out of step':
            # it has an indirect key, and nothing was found for it
            return ['find', event[1]]
        if event and reason is None:
            return event
    return None


def refused_event(rng, machine):
    """An event that is refused, for any of the reasons that hold now."""
    for word, reason in rng.choices(FIND_REFUSALS if has_indirect_key(machine.scenario) else REFUSALS, k=TRIES):
        for _ in range(3):
            event = any_event(rng, machine, word)
            if machine.refusal(event) == reason:
                return event
    return ['load', LARGEST]


def next_event(rng, machine, phase, refused):
    """An event that can be taken, if one is found; at times one that is refused, or that may be."""
    if rng.random() < refused:
        return refused_event(rng, machine)
    if has_indirect_key(machine.scenario) and rng.random() < 0.05:
        return any_event(rng, machine, 'find')
    if machine.waiting() and machine.turn is None and rng.random() < 0.2:
        return any_event(rng, machine, rng.choice(['scan', 'enter']))
    return lawful_event(rng, machine, phase)


def any_schedule(rng, scenario, size):
    """A schedule of at most `size` events, made along a machine that takes them."""
    machine = Machine(scenario)
    refused = rng.choice([0.0, 0.02, 0.05, 0.1, 0.3])
    schedule = []
    phase = rng.choice(PHASES[:2])
    for _ in range(rng.randint(size // 4, size)):
        if rng.random() < 0.03:
            phase = rng.choice(PHASES)
        schedule.append(next_event(rng, machine, phase, refused))
        if schedule[-1] is None:
            phase = rng.choice(PHASES)
            schedule[-1] = next_event(rng, machine, phase, refused) or refused_event(rng, machine)
        machine.step(schedule[-1])
    return schedule


def add_choices(rng, scenario, calls):
    """Adds the members that may be absent, but the schedule."""
    choices = {
        'cap': [1, 2, 3, 4, 8, 1024, 65536],
        'bits': [1, 2, 2, 3, 3, 4, 5, 7, rng.randint(8, 4096), 1048576],
        'limit': [1, rng.randint(1, calls + 1), max(1, calls - 1), calls + 2, 65536],
        'hash': ['modulo', 'spread', 'spread'],
    }
    for member, values in choices.items():
        if rng.random() < (0.3 if member == 'limit' else 0.7):
            scenario[member] = rng.choice(values)
    if rng.random() < 0.15:
        # the limit and the cap may be reached together
        scenario['cap'] = rng.randint(1, 4)
        scenario['limit'] = scenario['cap'] + 1


def any_scenario(rng, calls, clients, has_indirect_keys):
    """A scenario without a schedule, with at most that many calls of at most that many clients."""
    records = rng.choice([1, 2, 3, 4, 5, 6, 8, 20]) if rng.random() < 0.995 else 4200
    is_tame = rng.random() < 0.8
    scenario = {
        'version': 1,
        'records': [any_number(rng, is_tame) for _ in range(records)],
        'procs': any_procedures(rng, records, rng.choice([1, 1, 2, 3, MOST_KEYS]), has_indirect_keys),
        'clients': [[] for _ in range(rng.randint(1, clients) if rng.random() < 0.96 else 0)],
    }
    for _ in range(rng.randint(calls // 4, calls) if scenario['clients'] else 0):
        rng.choice(scenario['clients']).append(any_call(rng, rng.choice(scenario['procs']), records))
    if rng.random() < 0.1:
        scenario['clients'].insert(rng.randint(0, len(scenario['clients'])), [])
    return scenario


def any_options(rng):
    """Options of a run."""
    choices = {'--workers': [1, 2, 3, 8, 64], '--cap': [1, 2, 5, 65536], '--bits': [1, 2, 7, 1048576]}
    options = []
    for option, values in choices.items():
        if rng.random() < 0.5:
            value = rng.choice(values)
            options += [f'{option}={value}'] if rng.random() < 0.5 else [option, str(value)]
    return options


def scenario_of(kind, seed, size):
    """The scenario of a seed, and the options of its run; a replay has none."""
    rng = random.Random(f'{kind} {seed} {size}')
    calls, clients = (max(2, size // 4), 5) if kind == 'replay' else (size, 12)
    scenario = any_scenario(rng, calls, clients, has_indirect_keys=seed % 3 == 2)
    if seed % 4 == 3:
        become_version_two(random.Random(f'version two {seed}'), scenario)
    add_choices(rng, scenario, sum(map(len, scenario['clients'])))
    if kind == 'replay' and rng.random() < 0.96:
        scenario['schedule'] = any_schedule(rng, scenario, size)
    elif kind != 'replay' and rng.random() < 0.1:
        scenario['schedule'] = [['enter', 0], ['scan']]
    return scenario, [] if kind == 'replay' else any_options(rng)


def chosen_by(options):
    """The value of each option that is there."""
    words = ' '.join(options).replace('=', ' ').split()
    return dict(zip(words[::2], words[1::2]))


def text_of(scenario, seed):
    """A scenario as JSON text: its members in any order, each on a line of its own, laid out in one of several ways."""
    rng = random.Random(f'text {seed}')
    separators = rng.choice([(',', ':'), (', ', ': '), ('\t,', ' :\r\n')])
    is_escaped = rng.random() < 0.5
    members = [f'"{name}":{json.dumps(value, separators=separators, ensure_ascii=is_escaped)}'
               for name, value in scenario.items()]
    rng.shuffle(members)
    return '{' + ',\n '.join(members) + '}'
