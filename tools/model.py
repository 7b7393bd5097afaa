"""The language of procedures, and what a call does, as docs/SCENARIO.md has it; nothing of the program is used.

A procedure and a call are the objects of the scenario's JSON tree. The judges of runs and of replays, and the
generator of random scenarios, all take the language's meaning from here.
"""
import sys
from typing import NamedTuple

# Nested bodies are walked by functions that call themselves.
sys.setrecursionlimit(20000)

MOST = (1 << 64) - 1
LOCALS = 8


class Unlawful(Exception):
    """A printed text is not what it has to be; the message says why."""


def lines_of(text):
    if text and not text.endswith('\n'):
        raise Unlawful('the last line has no end')
    return text.split('\n')[:-1]


class Aborted(Exception):
    """A call has met a reason that ends it; the text is the reason."""


def at_most(value):
    if value > MOST:
        raise Aborted('overflow')
    return value


def difference(left, right):
    if right > left:
        raise Aborted('underflow')
    return left - right


def divisor(right):
    if right == 0:
        raise Aborted('zero divisor')
    return right


OPERATORS = {
    'add': lambda left, right: at_most(left + right),
    'sub': difference,
    'mul': lambda left, right: at_most(left * right),
    'div': lambda left, right: left // divisor(right),
    'rem': lambda left, right: left % divisor(right),
    'min': min,
    'max': max,
    'equal': lambda left, right: int(left == right),
    'less': lambda left, right: int(left < right),
}


def is_leaf(tree):
    """Whether a tree is one node, with nothing in it."""
    return isinstance(tree, int) or tree[0] in ('arg', 'key', 'local', 'abort')


def parts_of(statement):
    """The count of a statement's turns (1 if it is no repeat), the expressions in it, and the lists of statements."""
    word, *parts = statement
    if word == 'if':
        return 1, parts[:1], parts[1:]
    if word == 'repeat':
        return parts[0], [], parts[1:]
    if word == 'abort':
        return 1, [], []
    return 1, parts[1:] if word in ('let', 'set') else parts, []


def nodes_in(expression):
    return 1 if is_leaf(expression) else 1 + sum(map(nodes_in, expression[1:]))


def depth_in(expression):
    return 1 if is_leaf(expression) else 1 + max(map(depth_in, expression[1:]))


def nodes_of(statements):
    """How many nodes a list of statements has."""
    return sum(1 + sum(map(nodes_in, expressions)) + sum(map(nodes_of, lists))
               for _, expressions, lists in map(parts_of, statements))


def weight_of(statements):
    """The weight of a list of statements."""
    return sum(1 + sum(map(nodes_in, expressions)) + turns * sum(map(weight_of, lists))
               for turns, expressions, lists in map(parts_of, statements))


def depth_of(statements):
    """How deep a list of statements is."""
    return max((1 + max([*map(depth_in, expressions), *map(depth_of, lists)], default=0)
                for _, expressions, lists in map(parts_of, statements)), default=0)


def replies_of(statements):
    """How many replies a list of statements can make."""
    return sum((statement[0] == 'reply') + turns * max(map(replies_of, lists), default=0)
               for statement, (turns, _, lists) in zip(statements, map(parts_of, statements)))


def does_nothing(statements):
    """Whether a list of statements does nothing: each is a repeat of no turn, or of such a list."""
    return all(word == 'repeat' and (parts[0] == 0 or does_nothing(parts[1])) for word, *parts in statements)


class Found(NamedTuple):
    """The value that was found for the indirect key of a call, and the number of records."""
    value: int
    records: int

    @property
    def record(self):
        """The record of the indirect key."""
        return self.value % self.records


def record_of(key, args, found):
    """The record of a key of a call."""
    _, at, place = key
    if at == 'through':
        return found.record
    return place if at == 'fixed' else args[place]


def records_of(procedure, args, found=None):
    """The record of each key of a call, by the key's index."""
    return [record_of(key, args, found) for key in procedure['keys']]


def source_of(procedure, args):
    """The source of a call's indirect key, by whose value that key's record is found, if the call has such a key."""
    keys = procedure['keys']
    return next((record_of(keys[place], args, None) for _, at, place in keys if at == 'through'), None)


def claims_of(procedure, args, found=None):
    """The claims of a call in rising order of the records: each is a record, and whether it is for writing."""
    is_for_writing = {}
    for (mode, _, _), record in zip(procedure['keys'], records_of(procedure, args, found)):
        is_for_writing[record] = is_for_writing.get(record, False) or mode == 'write'
    return sorted(is_for_writing.items())


class Body:
    """Runs the body of one call over the values of its records."""

    def __init__(self, procedure, args, values, found=None):
        self.args = args
        self.records = records_of(procedure, args, found)
        self.source = source_of(procedure, args)
        self.found = found
        self.held = dict(values)
        self.locals = [0] * LOCALS
        self.replies = []

    def value(self, expression):
        """The value of an expression; operands are evaluated from left to right."""
        if isinstance(expression, int):
            return expression
        word, *parts = expression
        if word == 'arg':
            return self.args[parts[0]]
        if word == 'key':
            return self.held[self.records[parts[0]]]
        if word == 'local':
            return self.locals[parts[0]]
        if word == 'not':
            return int(self.value(parts[0]) == 0)
        left = self.value(parts[0])
        right = self.value(parts[1])
        return OPERATORS[word](left, right)

    def has_moved(self):
        """Whether the source of the indirect key no longer holds the value by which the key's record was found."""
        return self.source is not None and self.held[self.source] != self.found.value

    def make(self, statements):
        """Runs the whole body, if the source of the indirect key still holds what was found."""
        if self.has_moved():
            raise Aborted('moved')
        self.run(statements)

    def run(self, statements):
        for word, *parts in statements:
            if word == 'let':
                self.locals[parts[0]] = self.value(parts[1])
            elif word == 'set':
                self.held[self.records[parts[0]]] = self.value(parts[1])
            elif word == 'if':
                self.run(parts[1] if self.value(parts[0]) != 0 else parts[2])
            elif word == 'repeat':
                for _ in range(0 if does_nothing(parts[1]) else parts[0]):
                    self.run(parts[1])
            elif word == 'abort':
                raise Aborted(f'code {parts[0]}')
            elif word == 'reply':
                self.replies.append(self.value(parts[0]))
            else:
                raise ValueError(f'there is no statement {word}')


def make(procedure, args, values, found=None):
    """The reply of a call on these values of its records, as it is printed, and the values after it."""
    body = Body(procedure, args, values, found)
    try:
        body.make(procedure['body'])
    except Aborted as reason:
        return f'aborted {reason}', values
    return ' '.join(['committed', *map(str, body.replies)]), body.held


def found_on(records, procedure, args, value=None):
    """What a call's indirect key has found by this value of its source, or by the present one, if it has such a key."""
    source = source_of(procedure, args)
    if source is None:
        return None
    return Found(records[source] if value is None else value, len(records))


def make_on(records, procedure, args, value=None):
    """Makes a call on the list of all records, which it changes, and answers its reply as it is printed. The record of
    an indirect key was found by this value, or is found by the present one."""
    found = found_on(records, procedure, args, value)
    values = {record: records[record] for record in records_of(procedure, args, found)}
    reply, values = make(procedure, args, values, found)
    for record, held in values.items():
        records[record] = held
    return reply
