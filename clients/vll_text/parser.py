"""From a text to its parts."""
import json

from .language import (
    COMPARISON, EVENTS, HASHES, LEVELS, MOST, MOST_ARGS, MOST_CLIENTS, MOST_CODE, MOST_DEEP, MOST_EVENTS, MOST_INDEX,
    MOST_NESTED, MOST_RECORDS, MOST_TURNS, NOT, OPTIONS, OR, RESERVED, SETTING, WORDS,
)
from .lexer import tokens_of
from .parts import (
    Abort, Call, Code, If, Let, Mistake, Number, NumberOf, Operation, Parameter, Place, Procedure, Program, Record,
    Repeat, Reply, Set, Using,
)


class Parser:
    """Takes the tokens of a text one by one, and makes its parts of them."""

    def __init__(self, text):
        self.tokens = iter(tokens_of(text))
        self.token = next(self.tokens)
        self.nested = 0

    def advance(self):
        token = self.token
        self.token = next(self.tokens, token)
        return token

    def take(self, *words):
        """The next token, if it is one of these words."""
        return self.advance() if self.token.text in words else None

    def fail(self, why):
        raise Mistake(self.token.at, why)

    def want(self, word):
        if not self.take(word):
            self.fail(f'"{word}" is missing before {self.token}')

    def name(self, what):
        if self.token.kind != 'name':
            self.fail(f'{what} is missing before {self.token}')
        if self.token.text in RESERVED:
            self.fail(f'{what} cannot be the word {self.token}')
        return self.advance().text

    def number(self, what, least=0, most=MOST):
        if self.token.kind != 'number':
            self.fail(f'{what} is missing before {self.token}')
        digits = self.token.text.lstrip('0') or '0'
        if len(digits) > 20 or not least <= int(digits) <= most:
            self.fail(f'{what} is {least} to {most}')
        self.advance()
        return int(digits)

    def several(self, part):
        """One part or more, with commas between them."""
        parts = [part()]
        while self.take(','):
            parts.append(part())
        return parts

    def listed(self, part, end):
        """Parts up to a sign, with commas between them; perhaps none."""
        if self.take(end):
            return []
        parts = self.several(part)
        self.want(end)
        return parts

    def block(self, part):
        """Parts in braces, with semicolons between them or none."""
        self.want('{')
        parts = []
        while not self.take('}'):
            if self.token.kind == 'end':
                self.fail('"}" is missing before the end')
            if not self.take(';'):
                parts += part()
        return parts

    def deeper(self):
        self.nested += 1
        if self.nested > MOST_NESTED:
            self.fail('this is too deep: too many brackets, operators or lists inside one another')

    # The parts of a scenario.

    def program(self):
        program = Program()
        while self.token.kind != 'end':
            at, word = self.token.at, self.token.text
            if self.take('record'):
                program.records += self.several(self.record)
            elif self.take('code'):
                program.codes += self.several(self.code)
            elif self.take('proc'):
                program.procedures.append(self.procedure(at))
            elif self.take('client'):
                program.clients.append(self.block(self.call))
            elif self.take('clients'):
                program.clients += [[]] * self.number('how many clients', most=MOST_CLIENTS)
            elif self.take(*OPTIONS, 'hash', 'schedule'):
                if word in program.options:
                    raise Mistake(at, f'there is a {word} already')
                program.options[word] = self.option(at, word)
            elif not self.take(';'):
                self.fail(f'{self.token} begins no part: record, code, proc, client, clients, {", ".join(OPTIONS)}, '
                          'hash and schedule do')
            if len(program.clients) > MOST_CLIENTS:
                raise Mistake(at, f'there are {MOST_CLIENTS} clients at most')
        return program

    def option(self, at, word):
        if word in OPTIONS:
            return self.number(word, *OPTIONS[word])
        if word == 'schedule':
            events = self.block(self.event)
            if len(events) > MOST_EVENTS:
                raise Mistake(at, f'a schedule has {MOST_EVENTS} events at most')
            return events
        chosen = self.take(*HASHES)
        return chosen.text if chosen else self.fail(f'hash is {" or ".join(HASHES)}')

    def event(self):
        word = self.token.text
        if not self.take(*EVENTS):
            self.fail(f'{self.token} is no event: {", ".join(EVENTS)} are')
        what = 'a client' if word in ('find', 'enter') else 'a ticket'
        return [[word, self.number(what, most=MOST_INDEX)] if EVENTS[word] else [word]]

    def record(self):
        at, name, count = self.token.at, self.name("a record's name"), None
        if self.take('['):
            count = self.number('how many records', 1, MOST_RECORDS)
            self.want(']')
        if not self.take('='):
            return Record(at, name, count, [Number(at, 0)])
        if count is None or self.token.text != '[':
            return Record(at, name, count, [self.constant()])
        self.advance()
        values = self.listed(self.constant, ']')
        if len(values) != count:
            raise Mistake(at, f'{name} is {count} records, and here are {len(values)} values')
        return Record(at, name, count, values)

    def code(self):
        at, name = self.token.at, self.name("a code's name")
        self.want('=')
        return Code(at, name, self.number('a code', most=MOST_CODE))

    def called(self):
        """A procedure's name: a word, or any text in quotes, written as in JSON."""
        if self.token.kind != 'text':
            return self.name("a procedure's name")
        try:
            name = json.loads(self.token.text)
            name.encode()
        except ValueError:
            self.fail('this is no text of JSON')
        self.advance()
        return name

    def call(self):
        at, name = self.token.at, self.called()
        self.want('(')
        return [Call(at, name, self.listed(self.constant, ')'))]

    def constant(self):
        """A number, or a record."""
        if self.token.kind == 'number':
            return Number(self.token.at, self.number('a number'))
        return self.place('a number or a record')

    def procedure(self, at):
        name = self.called()
        self.want('(')
        parameters = self.listed(self.parameter, ')')
        if len(parameters) > MOST_ARGS:
            raise Mistake(parameters[MOST_ARGS].at, f'a procedure has {MOST_ARGS} arguments at most')
        using = self.several(self.using) if self.take('using') else []
        return Procedure(at, name, parameters, using, self.block(self.statements))

    def parameter(self):
        mode = self.take('read', 'write')
        at = self.token.at
        return Parameter(at, mode and mode.text, self.name("an argument's name"))

    def using(self):
        at, mode = self.token.at, self.take('read', 'write')
        if not mode:
            self.fail('"read" or "write" is missing before a record')
        is_through = bool(self.take('through'))
        place = self.place('a record')
        return Using(at, mode.text, is_through, place, self.name("a record's name") if self.take('as') else None)

    # Statements and expressions.

    def statements(self):
        """The statements that the next tokens are: one, but `reply a, b` is two."""
        at = self.token.at
        if self.take('if'):
            return [self.choice(at)]
        if self.take('repeat'):
            count = self.number('how many turns', most=MOST_TURNS)
            return [Repeat(at, count, self.inner_block())]
        if self.take('let'):
            at, name = self.token.at, self.name("a local's name")
            self.want('=')
            return [Let(at, name, self.expression())]
        if self.take('abort'):
            is_number = self.token.kind == 'number'
            return [Abort(at, self.number('a code', most=MOST_CODE) if is_number else self.place('a code'))]
        if self.take('reply'):
            return [Reply(value.at, value) for value in self.several(self.expression)]
        return [self.setting()]

    def setting(self):
        place = self.place('a statement')
        sign = self.take(*SETTING)
        if not sign:
            self.fail(f'"=" or one like "+=" is missing before {self.token}')
        return Set(place.at, place, WORDS.get(sign.text[:-1]), self.expression())

    def inner_block(self):
        self.deeper()
        block = self.block(self.statements)
        self.nested -= 1
        return block

    def choice(self, at):
        self.deeper()
        test = self.expression()
        first, second = self.inner_block(), []
        if self.take('else'):
            inner = self.token.at
            second = [self.choice(inner)] if self.take('if') else self.inner_block()
        self.nested -= 1
        return If(at, test, first, second)

    def place(self, what):
        at, name, index = self.token.at, self.name(what), None
        if self.take('['):
            index = self.number("a record's index")
            self.want(']')
        return Place(at, name, index)

    def expression(self, least=OR):
        """An expression whose operators bind at least as tightly as `least`, unless they are in parentheses."""
        self.deeper()
        left = self.operand(least)
        while LEVELS.get(self.token.text, -1) >= least:
            sign = self.advance()
            level = LEVELS[sign.text]
            left = binary(sign, left, self.expression(level + 1))
            if level == COMPARISON == LEVELS.get(self.token.text):
                self.fail('comparisons do not follow each other: put one in parentheses, or "and" between them')
        self.nested -= 1
        return left

    def operand(self, least):
        token = self.token
        if self.take('('):
            inside = self.expression()
            self.want(')')
            return inside
        if token.text == 'not' and least > NOT:
            self.fail('"not" binds less than the operator before it: put it in parentheses')
        if self.take('not'):
            return operation(token.at, 'not', self.expression(NOT))
        if self.take('min', 'max'):
            self.want('(')
            left = self.expression()
            self.want(',')
            right = self.expression()
            self.want(')')
            return operation(token.at, token.text, left, right)
        if self.take('number'):
            self.want('(')
            place = self.place('a record')
            self.want(')')
            return NumberOf(token.at, place)
        if token.kind == 'number':
            return Number(token.at, self.number('a number'))
        return self.place('an expression')


def operation(at, word, *operands):
    depth = 1 + max(operand.depth for operand in operands)
    if depth >= MOST_DEEP:
        raise Mistake(at, 'this expression is too deep: keep a part of it in a local')
    return Operation(at, word, operands, depth)


def binary(sign, left, right):
    """What an operator between two operands stands for."""
    if sign.text in ('>', '<='):
        left, right = right, left
    if sign.text in ('<=', '>=', '!='):
        inner = operation(sign.at, 'equal' if sign.text == '!=' else 'less', left, right)
        return operation(sign.at, 'not', inner)
    return operation(sign.at, 'less' if sign.text == '>' else WORDS[sign.text], left, right)
