"""Makes random procedures of every form of the language, all well-formed: first of version 1, and of these some of
version 2, with repeats in their bodies and more keys."""
from model import LOCALS, MOST, OPERATORS, depth_of, nodes_in, nodes_of, parts_of, replies_of, weight_of

MOST_ARGS = 8
MOST_KEYS = 16
MOST_KEYS_OF_VERSION_TWO = 32
MOST_REPLIES = 8
MOST_DEEP = 32
MOST_NODES = 1024
MOST_TURNS = 64
MOST_WEIGHT = 65536
MOST_CODE = 65535

# Operators that seldom end a call stand for most of those in a tame body.
TAME = ['add', 'add', 'min', 'max', 'equal', 'less', 'not']
ALL = [*OPERATORS, 'not']
CORNERS = [0, 1, 2, 255, 65535, (1 << 32) - 1, 1 << 32, (1 << 32) + 1, (1 << 63) - 1, 1 << 63, MOST - 1, MOST]
# Expressions that end the call.
FAILING = [['div', 1, 0], ['rem', 1, 0], ['sub', 0, 1], ['add', MOST, 1], ['mul', MOST, 2]]
NAMES = ['', ' ', 'take', 'Take', 'été', '転送', '\U0001d11e', '"', '\\', '\n', '\x00', '/', 'take ']


def any_number(rng, is_tame):
    """A number: mostly a small one, in a tame place nearly always."""
    if rng.random() < (0.97 if is_tame else 0.5):
        return rng.randrange(10)
    return rng.choice([rng.choice(CORNERS), rng.randrange(1000), rng.randrange(MOST + 1)])


class BodyWriter:
    """Writes the body of a procedure with these keys; the locals of `known` are surely set where it writes."""

    def __init__(self, rng, args, keys, is_tame):
        self.rng = rng
        self.args = args
        self.keys = keys
        self.is_tame = is_tame
        self.known = set()
        self.replies_left = rng.choice([0, 1, 1, 2, 3, MOST_REPLIES])

    def leaf(self):
        forms = ['number']
        forms += ['arg'] * (2 if self.args else 0)
        forms += ['key'] * (4 if self.keys else 0)
        forms += ['local'] * (2 if self.known else 0)
        form = self.rng.choice(forms)
        if form == 'number':
            return any_number(self.rng, self.is_tame)
        if form == 'local':
            return ['local', self.rng.choice(sorted(self.known))]
        return [form, self.rng.randrange(self.args if form == 'arg' else len(self.keys))]

    def expression(self, depth, nodes):
        """An expression that is at most this deep and has at most this many nodes, mostly far fewer."""
        if depth < 2 or nodes < 2 or self.rng.random() < 0.35:
            return self.leaf()
        if not self.is_tame and depth > 2 and nodes > 6 and self.rng.random() < 0.06:
            return self.rng.choice([
                ['mul', 0, self.rng.choice(FAILING)],
                [self.rng.choice(list(OPERATORS)), self.rng.choice(FAILING), self.rng.choice(FAILING)],
            ])
        word = self.rng.choice(TAME if self.is_tame and self.rng.random() < 0.9 else ALL)
        if word == 'not' or nodes < 3:
            return ['not', self.expression(depth - 1, nodes - 1)]
        left = self.rng.randint(1, nodes - 2)
        return [word, self.expression(depth - 1, left), self.expression(depth - 1, nodes - 1 - left)]

    def statement(self, depth, nodes, is_inner):
        """A statement of these measures; `is_inner` says that it stands inside an if."""
        forms = ['let', 'let', 'if', 'if'] if depth > 2 and nodes > 4 else ['let']
        forms += ['set'] * (4 if any(key[0] == 'write' for key in self.keys) else 0)
        forms += ['reply'] * (2 if self.replies_left else 0)
        forms += ['abort'] * (is_inner or not self.is_tame and self.rng.random() < 0.1)
        form = self.rng.choice(forms) if depth > 1 and nodes > 1 else 'abort'
        if form == 'abort':
            return ['abort', self.rng.choice([0, 1, 7, MOST_CODE, self.rng.randint(0, MOST_CODE)])]
        if form == 'if':
            return self.choice(depth, nodes)
        if form == 'let':
            written = ['let', self.rng.randrange(LOCALS), self.expression(depth - 1, nodes - 1)]
            self.known.add(written[1])
            return written
        if form == 'set':
            index = self.rng.choice([index for index, key in enumerate(self.keys) if key[0] == 'write'])
            return ['set', index, self.expression(depth - 1, nodes - 1)]
        self.replies_left -= 1
        return ['reply', self.expression(depth - 1, nodes - 1)]

    def choice(self, depth, nodes):
        """An if. After it what both of its lists set is surely set, and its replies are those of the list that has more."""
        condition = self.expression(depth - 1, self.rng.randint(1, nodes - 1))
        nodes = (nodes - 1 - nodes_in(condition)) // 2
        known, replies_left = set(self.known), self.replies_left
        first = self.statements(depth - 1, nodes, is_inner=True)
        first_known, first_left = self.known, self.replies_left
        self.known, self.replies_left = known, replies_left
        second = self.statements(depth - 1, nodes, is_inner=True)
        self.known &= first_known
        self.replies_left = min(self.replies_left, first_left)
        return ['if', condition, first, second]

    def statements(self, depth, nodes, is_inner=False):
        written = []
        for _ in range(self.rng.choice([0, 1, 1, 2, 3] if is_inner else [0, 1, 2, 3, 4, 6])):
            if depth < 1 or nodes < 1:
                break
            written.append(self.statement(depth, nodes, is_inner))
            nodes -= nodes_of(written[-1:])
        return written


def bump(keys):
    """The body that adds 1 to each record that it may write, and replies what the last key's record holds."""
    body = [['set', index, ['add', ['key', index], 1]] for index, key in enumerate(keys) if key[0] == 'write']
    return body + [['reply', ['key', len(keys) - 1]]] if keys else body


def deep(rng, writer):
    """A body as deep as may be: an if inside another, and operators to the last of the depth."""
    expression = writer.leaf()
    ifs = rng.randrange(MOST_DEEP - 1)
    for _ in range(MOST_DEEP - 2 - ifs):
        expression = ['not', expression] if rng.random() < 0.5 else ['max', writer.leaf(), expression]
    body = [['reply', expression]]
    for _ in range(ifs):
        lists = [body, [['abort', 1]]]
        rng.shuffle(lists)
        body = [['if', writer.leaf(), *lists]]
    return body


def long(writer):
    """A body with as many nodes as there may be."""
    body, left = [], MOST_NODES
    while left > 1:
        body.append(['let', 0, writer.expression(4, left - 1)])
        left -= nodes_of(body[-1:])
    return body + [['abort', 0]] * left


def any_body(rng, args, keys):
    is_tame = rng.random() < 0.7
    writer = BodyWriter(rng, args, keys, is_tame)
    kind = rng.random()
    if kind < 0.3:
        return bump(keys)
    if kind < 0.33:
        return deep(rng, writer)
    if kind < 0.35:
        return long(writer)
    if kind < 0.38:
        return [['reply', writer.expression(3, 8)] for _ in range(MOST_REPLIES)]
    if kind < 0.42:
        return writer.statements(MOST_DEEP, MOST_NODES)
    return writer.statements(5, 60)


def any_keys(rng, args, records, most_keys):
    most = min(most_keys, rng.choice([0, 1, 1, 1, 2, 2, 2, 3, 4, MOST_KEYS]))
    keys = []
    for _ in range(rng.choice([most, rng.randint(min(1, most), most)])):
        mode = rng.choice(['read', 'write'])
        if args and rng.random() < 0.7:
            keys.append([mode, 'arg', rng.randrange(args)])
        else:
            keys.append([mode, 'fixed', rng.randrange(records)])
    return keys


def with_indirect_key(rng, records, keys):
    """These keys with an indirect one among them; where there are as many as may be, the last gives way to it."""
    keys = keys[:MOST_KEYS - 1] or [[rng.choice(['read', 'write']), 'fixed', rng.randrange(records)]]
    source = rng.randrange(len(keys))
    keys.insert(rng.randint(source + 1, len(keys)), [rng.choice(['read', 'write']), 'through', source])
    return keys


def any_procedures(rng, records, most_keys, has_indirect_keys=False):
    """Some procedures for that many records, each with at most `most_keys` keys, and at times an indirect one beside them."""
    names = rng.sample(NAMES, 3) + [f'procedure {number}' for number in range(5)]
    procedures = []
    for name in names[rng.randrange(3):rng.randint(4, 8)]:
        args = rng.choice([0, 1, 1, 2, 2, 3, MOST_ARGS])
        keys = any_keys(rng, args, records, most_keys)
        if has_indirect_keys and rng.random() < 0.6:
            keys = with_indirect_key(rng, records, keys)
        procedures.append({'name': name, 'args': args, 'keys': keys, 'body': any_body(rng, args, keys)})
    return procedures


def any_call(rng, procedure, records):
    """A call that can be made: an argument that is a key's record is one of those there are."""
    places = {place for _, at, place in procedure['keys'] if at == 'arg'}
    args = [rng.randrange(records) if index in places else any_number(rng, is_tame=rng.random() < 0.7)
            for index in range(procedure['args'])]
    return {'proc': procedure['name'], 'args': args}


def lists_of(statements):
    """A list of statements, and each that stands in it."""
    yield statements
    for statement in statements:
        for inside in parts_of(statement)[2]:
            yield from lists_of(inside)


def is_well_formed(body):
    return (replies_of(body) <= MOST_REPLIES and depth_of(body) <= MOST_DEEP and nodes_of(body) <= MOST_NODES
            and weight_of(body) <= MOST_WEIGHT)


def add_repeat(rng, body):
    """Puts some statements of the body that follow each other into a repeat, if the body stays within its measures."""
    statements = rng.choice(list(lists_of(body)))
    start = rng.randint(0, len(statements))
    end = rng.randint(start, min(len(statements), start + 4))
    inside = statements[start:end]
    # A local that no turn has set may be read behind it.
    fewest = int(any(statement[0] == 'let' for part in lists_of(inside) for statement in part))
    turns = rng.choice([0, 1, 2, 2, 3, 3, 4, 5, 8, 9, MOST_TURNS - 1, MOST_TURNS])
    for count in [max(fewest, turns), 2, 1]:
        statements[start:end] = [['repeat', count, inside]]
        if is_well_formed(body):
            return
        statements[start:start + 1] = inside


def add_count(rng, body):
    """Puts a repeat behind the body that counts in a local, and a reply of the count, if its measures allow it."""
    local = rng.randrange(LOCALS)
    counted = ['add', ['local', local], rng.choice([1, 1, 2, 7])]
    added = [['let', local, rng.randrange(3)],
             ['repeat', rng.choice([1, 2, 3, 10, MOST_TURNS]), [['let', local, counted]]], ['reply', ['local', local]]]
    if is_well_formed(body + added):
        body += added


def add_keys(rng, procedure, records):
    """Puts fixed keys behind those of the procedure, up to as many as there may be."""
    for _ in range(rng.choice([17, 20, *[MOST_KEYS_OF_VERSION_TWO] * 2]) - len(procedure['keys'])):
        procedure['keys'].append([rng.choice(['read', 'write']), 'fixed', rng.randrange(records)])


def become_version_two(rng, scenario):
    """The scenario says version 2, and uses what that has."""
    scenario['version'] = 2
    for procedure in scenario['procs']:
        for _ in range(rng.choice([0, 1, 1, 2, 3])):
            add_repeat(rng, procedure['body'])
        if rng.random() < 0.3:
            add_count(rng, procedure['body'])
        if rng.random() < 0.25:
            add_keys(rng, procedure, len(scenario['records']))
