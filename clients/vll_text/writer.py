"""From the tree of a scenario to a text."""
import json
import re
from itertools import chain, groupby

from .compiler import scenario_of
from .language import ATOM, COMPARISON, LEVELS, MOST_KEYS, NOT, OR, RESERVED, SETTING, SIGNS, WIDTH
from .parts import Mistake


class ProcedureText:
    """Writes one procedure. Its arguments are called a0, a1 and so on, keys that need a name k0, and locals x0; a
    record is one of the array r."""

    def __init__(self, tree):
        self.tree = tree
        self.keys = tree['keys']
        self.leading = leading_keys(self.keys)
        self.args = [f'a{index}' if self.is_used(index) else f'_a{index}' for index in range(tree['args'])]
        self.key_names = []
        fixed = set()
        for index, (_, by, number) in enumerate(self.keys):
            is_named = by == 'fixed' and number not in fixed
            self.key_names.append(self.args[number] if index < self.leading else
                                  f'r[{number}]' if is_named else f'k{index}')
            fixed |= {number} if is_named else set()
        self.known = set()

    def is_used(self, arg):
        key = next((index for index in range(self.leading) if self.keys[index][2] == arg), None)
        return (uses(self.tree['body'], ['arg', arg])
                or key is not None and (uses(self.tree['body'], ['key', key]) or uses(self.tree['body'], ['set', key])
                                        or any(by == 'through' and number == key for _, by, number in self.keys))
                or any(by == 'arg' and number == arg for _, by, number in self.keys[self.leading:]))

    def text(self):
        modes = {number: f'{mode} ' for mode, _, number in self.keys[:self.leading]}
        parameters = ', '.join(modes.get(index, '') + name for index, name in enumerate(self.args))
        using = ', '.join(map(self.using, range(self.leading, len(self.keys))))
        name = self.tree['name']
        head = f'proc {called(name)}({parameters})' + (f' using {using}' if using else '')
        return '\n'.join([f'{head} {{', *self.lines(self.tree['body']), '}', ''])

    def using(self, index):
        mode, by, number = self.keys[index]
        if by == 'through':
            return f'{mode} through {self.key_names[number]} as {self.key_names[index]}'
        record = self.args[number] if by == 'arg' else f'r[{number}]'
        return f'{mode} {record}' if self.key_names[index] == record else f'{mode} {record} as {self.key_names[index]}'

    # Statements.

    def lines(self, statements):
        found = []
        for are_replies, some in groupby(statements, lambda statement: statement[0] == 'reply'):
            if are_replies:
                found.append(f'reply {", ".join(self.value(value) for _, value in some)}')
            else:
                found += chain.from_iterable(self.statement(*statement) for statement in some)
        return [f'  {line}' for line in found]

    def statement(self, word, *parts):
        """The lines of any statement but a reply."""
        if word == 'if':
            return self.choice(*parts)
        if word == 'repeat':
            return self.turns(*parts)
        if word == 'abort':
            return [f'abort {parts[0]}']
        return [self.local_set(*parts) if word == 'let' else self.key_set(*parts)]

    def turns(self, count, body):
        before = set(self.known)
        lines = self.lines(body)
        if count == 0:
            self.known = before
        return [f'repeat {count} {{', *lines, '}']

    def local_set(self, local, value):
        if local in self.known:
            return self.setting(f'x{local}', ['local', local], value)
        text = f'let x{local} = {self.value(value)}'
        self.known.add(local)
        return text

    def key_set(self, key, value):
        return self.setting(self.key_names[key], ['key', key], value)

    def setting(self, name, itself, value):
        """The text that sets what is called `name` and is read as `itself`."""
        if isinstance(value, list) and value[1] == itself and f'{SIGNS.get(value[0])}=' in SETTING:
            return f'{name} {SIGNS[value[0]]}= {self.value(value[2])}'
        return f'{name} = {self.value(value)}'

    def choice(self, test, first, second):
        test, before = self.value(test), set(self.known)
        lines = self.lines(first)
        known, self.known = self.known, before
        other = self.lines(second)
        self.known &= known
        if not second and len(lines) == 1 and len(test) + len(lines[0]) < WIDTH // 2:
            return [f'if {test} {{ {lines[0].strip()} }}']
        if len(second) == 1 and second[0][0] == 'if':
            return [f'if {test} {{', *lines, f'}} else {other[0].strip()}', *(line[2:] for line in other[1:])]
        return [f'if {test} {{', *lines, *(['} else {', *other] if second else []), '}']

    # Expressions.

    def value(self, tree, least=OR):
        """The text of an expression, in parentheses if it binds less tightly than `least`."""
        text, level = self.bare(tree)
        return f'({text})' if level < least else text

    def bare(self, tree):
        """The text of an expression, and how tightly its operator binds."""
        if isinstance(tree, int):
            return str(tree), ATOM
        word, first, *rest = tree
        if word == 'local':
            return f'x{first}', ATOM
        if word == 'key':
            return self.key_names[first], ATOM
        if word == 'arg':
            is_record = self.args[first] in self.key_names[:self.leading]
            return (f'number({self.args[first]})' if is_record else self.args[first]), ATOM
        if word == 'not':
            sign = {'less': '>=', 'equal': '!='}.get(first[0]) if isinstance(first, list) else None
            return self.infix(sign, *first[1:]) if sign else (f'not {self.value(first, NOT)}', NOT)
        if word in ('min', 'max') and not (is_truth(first) and is_truth(*rest)):
            return f'{word}({self.value(first)}, {self.value(*rest)})', ATOM
        return self.infix(SIGNS[word], first, *rest)

    def infix(self, sign, left, right):
        level = LEVELS[sign]
        least = level + 1 if level == COMPARISON else level
        return f'{self.value(left, least)} {sign} {self.value(right, level + 1)}', level


def leading_keys(keys):
    """How many of the first keys are by arguments, in rising order: these stand in the list of arguments."""
    last = -1
    for index, (_, by, number) in enumerate(keys):
        if by != 'arg' or number <= last:
            return index
        last = number
    return len(keys)


def uses(tree, beginning):
    """Whether some list in a tree begins with these items."""
    if not isinstance(tree, list):
        return False
    return tree[:len(beginning)] == beginning or any(uses(part, beginning) for part in tree)


def is_truth(tree):
    """Whether the operator of an expression alone makes it 0 or 1."""
    return isinstance(tree, list) and (tree[0] in ('equal', 'less', 'not')
                                       or tree[0] in ('min', 'max') and is_truth(tree[1]) and is_truth(tree[2]))


def called(name):
    is_word = re.fullmatch(r'[A-Za-z_][A-Za-z0-9_]*', name) and name not in RESERVED
    return name if is_word else json.dumps(name)


def filled(head, parts, separator, end):
    """The parts between a head and an end, in one line, or in several lines that are filled up to WIDTH."""
    line = f'{head} {separator.join(parts)} {end}'
    if len(line) <= WIDTH:
        return f'{line}\n'
    lines = [' ']
    for index, part in enumerate(parts):
        part += separator.rstrip() if index + 1 < len(parts) else ''
        if len(lines[-1]) + len(part) >= WIDTH:
            lines.append(' ')
        lines[-1] += f' {part}'
    return '\n'.join([head, *lines, end, ''])


def call_text(call, procedures):
    keys = procedures[call['proc']]['keys']
    places = {number for _, by, number in keys if by == 'arg'}
    args = ', '.join(f'r[{value}]' if index in places else str(value) for index, value in enumerate(call['args']))
    return f'{called(call["proc"])}({args})'


def clients_texts(scenario):
    """The text of each client, and one for clients without calls that follow each other."""
    procedures = {tree['name']: tree for tree in scenario['procs']}
    empty = 0
    for script in [*scenario['clients'], None]:
        if script == []:
            empty += 1
            continue
        if empty:
            yield f'clients {empty}\n'
            empty = 0
        if script:
            calls = [call_text(call, procedures) for call in script]
            is_short = len(calls) == 1 and len(calls[0]) < WIDTH // 2
            yield f'client {{ {calls[0]} }}\n' if is_short else '\n  '.join(['client {', *calls]) + '\n}\n'


def version_of(procedures):
    """The lowest version that has what these procedures use."""
    is_second = any(len(tree['keys']) > MOST_KEYS[1] or uses(tree['body'], ['repeat']) for tree in procedures)
    return 2 if is_second else 1


def written(scenario):
    records = scenario['records']
    array = f'record r[{len(records)}] ='
    is_one = len(set(records)) == 1
    head = [] if version_of(scenario['procs']) == scenario['version'] else [f'version {scenario["version"]}\n']
    head += [f'{array} {records[0]}\n' if is_one else filled(f'{array} [', list(map(str, records)), ', ', ']')]
    head += [f'{word} {scenario[word]}\n' for word in ('cap', 'bits', 'limit', 'hash') if word in scenario]
    parts = [''.join(head), *(ProcedureText(tree).text() for tree in scenario['procs']), *clients_texts(scenario)]
    if 'schedule' in scenario:
        events = [' '.join(map(str, event)) for event in scenario['schedule']]
        parts.append(filled('schedule {', events, '; ', '}'))
    return '\n'.join(parts)


def renumbered(procedure):
    """A procedure whose locals are numbered in the order in which its text has them: the numbers mean nothing else."""
    numbers = {}

    def tree_of(tree):
        if not isinstance(tree, list):
            return tree
        if tree and tree[0] == 'let':
            value = tree_of(tree[2])
            return ['let', numbers.setdefault(tree[1], len(numbers)), value]
        return ['local', numbers[tree[1]]] if tree and tree[0] == 'local' else list(map(tree_of, tree))
    return {**procedure, 'body': tree_of(procedure['body'])}


def canonical(tree):
    return json.dumps(tree, sort_keys=True)


def text_of(scenario):
    """The text of a scenario, which `scenario_of` compiles to it again, but for the numbers of locals.

    Raises ValueError for what is no scenario that vll accepts.
    """
    try:
        text = written(scenario)
        is_same = canonical(scenario_of(text)) == canonical(
            {**scenario, 'procs': list(map(renumbered, scenario['procs']))})
    except (AttributeError, IndexError, KeyError, TypeError, Mistake, RecursionError) as why:
        raise ValueError(str(why)) from why
    if not is_same:
        raise ValueError('it has something that no text can say')
    return text
