"""Machines that are wrong, each in one point, which random replays have to find out, and random runs some of them."""
from copy import copy
from types import SimpleNamespace

from model import MOST, OPERATORS, Aborted, Body, Found, does_nothing
from replay_model import Call, Machine

MEETS, REFUSAL, STEP, VALUE, RUN = Machine.meets, Machine.refusal, Machine.step, Body.value, Body.run
TAKE_CLAIM, TAKE_FIND = Machine.take_claim, Machine.take_find
TAKE_ENTER, TAKE_STORE = Machine.take_enter, Machine.take_store


def waiting(self):
    return (ticket for ticket in self.unfinished() if self.calls[ticket].status == 'waiting')


def scan_of_running_calls(self):
    for ticket in waiting(self):
        running = [other for other in self.calls[:ticket] if other.status == 'running']
        if not any(MEETS(self, self.calls[ticket], other) for other in running):
            return ticket
    return None


def meets_open_claims(self, one, other):
    return MEETS(self, one, SimpleNamespace(claims=other.claims[other.released:]))


def meets_by_places_alone(self, one, other):
    return any(self.place(left) == self.place(right) for left, _ in one.claims for right, _ in other.claims)


def claim_that_counts_if_granted(self):
    record, _ = self.turn.claims[self.turn.requested]
    old = self.pairs[record]
    answer = TAKE_CLAIM(self)
    if answer.endswith('denied'):
        self.pairs[record] = old
    return answer


def claim_that_forgets_the_last_denial(self):
    self.turn.is_granted = True
    return TAKE_CLAIM(self)


def told_before(word, sooner, later, holds):
    """Refusals of events of this word that tell one reason before another, if it holds as well."""
    def refusal(self, event):
        reason = REFUSAL(self, event)
        return sooner if event[0] == word and reason == later and holds(self, event[-1]) else reason
    return refusal


def taken_in_an_open_turn(word):
    """Refusals that do not look at the turn for events of this word."""
    def refusal(self, event):
        turn = self.turn
        self.turn = None if event[0] == word else turn
        reason = REFUSAL(self, event)
        self.turn = turn
        return reason
    return refusal


def value_from_the_right(self, expression):
    """Operands are evaluated from right to left."""
    if isinstance(expression, list) and expression[0] in OPERATORS:
        right = self.value(expression[2])
        return OPERATORS[expression[0]](self.value(expression[1]), right)
    return VALUE(self, expression)


def value_of_a_product(self, expression):
    """The right operand of a product is not evaluated behind a 0."""
    if isinstance(expression, list) and expression[0] == 'mul' and VALUE(self, expression[1]) == 0:
        return 0
    return VALUE(self, expression)


def run_with_other_turns(turns_of):
    """Each repeat has other turns than it says."""
    def run(self, statements):
        for word, *parts in statements:
            RUN(self, [[word, turns_of(parts[0]), parts[1]] if word == 'repeat' else [word, *parts]])
    return run


def run_that_looks_at_first_statements(self, statements):
    """A repeat is passed over if the first statement of its list does nothing."""
    for word, *parts in statements:
        if word != 'repeat' or not does_nothing(parts[1][:1]):
            RUN(self, [[word, *parts]])


def run_with_the_first(name):
    """Each turn of a repeat begins with what the body had of this name before the repeat."""
    def run(self, statements):
        for word, *parts in statements:
            kept = copy(getattr(self, name))
            for _ in range(parts[0] if word == 'repeat' else 0):
                setattr(self, name, copy(kept))
                self.run(parts[1])
            if word != 'repeat':
                RUN(self, [[word, *parts]])
    return run


def run_in_which_an_abort_ends_a_repeat(self, statements):
    """What follows a repeat is run although a turn of it was aborted."""
    for statement in statements:
        try:
            RUN(self, [statement])
        except Aborted:
            if statement[0] != 'repeat':
                raise


def body_before_the_test_of_moved(self, statements):
    """The source is compared with what was found behind the last statement."""
    self.run(statements)
    if self.has_moved():
        raise Aborted('moved')


def moved_to_another_record(self):
    """The source may hold another value, if that finds the same record."""
    return self.source is not None and self.held[self.source] % self.found.records != self.found.record


def find_in_the_opening_records(self, client):
    value = self.found[client] = self.scenario['records'][self.next_source(client)]
    return f'found {value}'


def that_keeps_what_was_found(take):
    """An event that leaves what a client has found before as it was."""
    def taken(self, client):
        kept = dict(self.found)
        answer = take(self, client)
        self.found.update(kept)
        return answer
    return taken


def enter_that_finds_again(self, client):
    source = self.next_source(client)
    if source is not None:
        self.found[client] = self.values[source]
    return TAKE_ENTER(self, client)


def enter_without_a_find(self, event):
    """Finds for an enter that would be refused for want of a value."""
    reason = REFUSAL(self, event)
    if event[0] == 'enter' and reason == 'out of step':
        self.found[event[1]] = self.values[self.next_source(event[1])]
        return None
    return reason


def step_that_drops_the_value_of_a_refused_enter(self, event):
    answer = STEP(self, event)
    if event[0] == 'enter' and answer.startswith('refused'):
        self.found.pop(event[1], None)
    return answer


def store_that_drops_what_was_found(self, ticket):
    call = self.calls[ticket]
    record = call.written[call.stored]
    for client in [client for client in self.found if self.next_source(client) == record]:
        del self.found[client]
    return TAKE_STORE(self, ticket)


# Operators that are wrong, each in the place of a right one.
WRONG_OPERATORS = {
    'add': lambda left, right: min(left + right, MOST),
    'sub': lambda left, right: max(left - right, 0),
    'mul': lambda left, right: left * right % (MOST + 1),
    'div': lambda left, right: left // right if right else 0,
    'rem': lambda left, right: left % right if right else left,
    'min': max,
    'max': min,
    'equal': lambda left, right: int(left != right),
    'less': lambda left, right: int(left <= right),
}

# What is wrong with calls that have an indirect key, in runs too, and what stands in the place of a right one.
WRONG_CALLS = {
    'the record of an indirect key is not taken modulo the records': (
        Found, 'record', property(lambda self: min(self.value, self.records - 1))),
    'no source is tested for another value': (Body, 'has_moved', lambda self: False),
    'the source is tested after the body': (Body, 'make', body_before_the_test_of_moved),
}

# The word of an event, the reason that a wrong machine tells before another, and whether it holds as well.
TOLD_BEFORE = [
    ('enter', 'busy', 'spent', lambda self, client: self.waiting() == self.cap),
    ('enter', 'spent', 'no call', lambda self, client: len(self.calls) == self.limit),
    ('finish', 'not running', 'turn open', lambda self, ticket: not self.is_running(ticket)),
    ('find', 'no call', 'turn open', lambda self, client: not self.has_call_left(client)),
    ('enter', 'out of step', 'busy', lambda self, client: not self.is_ready(client)),
    ('enter', 'out of step', 'spent', lambda self, client: not self.is_ready(client)),
]

# Machines that are wrong: what each does, and the function that stands in the place of a right one.
WRONG = {
    **WRONG_CALLS,
    'front passes running calls': (Machine, 'front', lambda self: next(waiting(self), None)),
    'the scan looks at running calls alone': (Machine, 'scan', scan_of_running_calls),
    'the scan does not count released claims': (Machine, 'meets', meets_open_claims),
    'readers hold each other back': (Machine, 'meets', meets_by_places_alone),
    'the scan looks at records': (Machine, 'place', lambda self, record: record),
    'the hash is always modulo': (Machine, 'place', lambda self, record: record % self.bits),
    'the cap counts running calls': (Machine, 'waiting', lambda self: len(self.unfinished())),
    'a denied claim is not counted': (Machine, 'take_claim', claim_that_counts_if_granted),
    'the last claim alone tells whether a call is free': (Machine, 'take_claim', claim_that_forgets_the_last_denial),
    'operands are evaluated from right to left': (Body, 'value', value_from_the_right),
    'a product with 0 leaves its right operand out': (Body, 'value', value_of_a_product),
    'a repeat has a turn more': (Body, 'run', run_with_other_turns(lambda turns: turns + 1)),
    'a repeat has a turn less': (Body, 'run', run_with_other_turns(lambda turns: max(turns - 1, 0))),
    'a repeat has a turn at least': (Body, 'run', run_with_other_turns(lambda turns: max(turns, 1))),
    'a repeat has one turn': (Body, 'run', run_with_other_turns(lambda turns: min(turns, 1))),
    'a repeat is passed over if its first statement does nothing': (Body, 'run', run_that_looks_at_first_statements),
    'turns begin with the first locals': (Body, 'run', run_with_the_first('locals')),
    'turns begin with the first values': (Body, 'run', run_with_the_first('held')),
    'a repeat makes the replies of its last turn': (Body, 'run', run_with_the_first('replies')),
    'an abort ends its repeat alone': (Body, 'run', run_in_which_an_abort_ends_a_repeat),
    'aborted calls store': (Call, 'has_aborted', lambda self: False),
    'calls finish in an open turn': (Machine, 'refusal', taken_in_an_open_turn('finish')),
    'front goes on in an open turn': (Machine, 'refusal', taken_in_an_open_turn('front')),
    'the scan goes on in an open turn': (Machine, 'refusal', taken_in_an_open_turn('scan')),
    'a source that finds the same record has not moved': (Body, 'has_moved', moved_to_another_record),
    'an enter finds once more': (Machine, 'take_enter', enter_that_finds_again),
    'an enter finds what it lacks': (Machine, 'refusal', enter_without_a_find),
    'an enter does not use up what was found': (Machine, 'take_enter', that_keeps_what_was_found(TAKE_ENTER)),
    'a refused enter drops what was found': (Machine, 'step', step_that_drops_the_value_of_a_refused_enter),
    'a store of the source drops what was found': (Machine, 'take_store', store_that_drops_what_was_found),
    'a second find keeps the value of the first': (Machine, 'take_find', that_keeps_what_was_found(TAKE_FIND)),
    'a find loads the opening records': (Machine, 'take_find', find_in_the_opening_records),
    'a find goes on in the turn of its client': (Machine, 'is_turn_of', lambda self, client: False),
    'a find is refused in each open turn': (Machine, 'is_turn_of', lambda self, client: self.turn is not None),
    **{f'{word} tells {sooner} before {later}': (Machine, 'refusal', told_before(word, sooner, later, holds))
       for word, sooner, later, holds in TOLD_BEFORE},
}
