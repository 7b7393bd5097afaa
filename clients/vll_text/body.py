"""From the parts of a procedure to its tree."""
from .language import LOCALS, MOST_KEYS
from .measures import measure
from .parts import Abort, If, Let, Mistake, Number, NumberOf, Operation, Repeat, Reply, Set


class Body:
    """Compiles one procedure."""

    def __init__(self, procedure, records, codes, version):
        self.procedure = procedure
        self.records = records
        self.codes = codes
        # the version that the text states, if it does
        self.version = version
        self.needs_version_two = False
        self.keys = []
        # the keys by the name that they have in the body, and those of records by the record's number
        self.key_names = {}
        self.fixed = {}
        # those that no list of the procedure's head has: what is set of them is written
        self.unlisted = set()
        self.args = {}
        self.used = set()
        self.locals = {}
        # the locals that are surely set
        self.known = set()

    def compiled(self):
        for index, parameter in enumerate(self.procedure.parameters):
            self.add_parameter(index, parameter)
        for using in self.procedure.using:
            self.add_using(using)
        body = self.statements(self.procedure.body)
        for parameter in self.procedure.parameters:
            if parameter.name not in self.used and not parameter.name.startswith('_'):
                raise Mistake(parameter.at, f'the argument {parameter.name} is not used: if that is meant, '
                              f'call it _{parameter.name}')
        measure(self.procedure.body, body)
        return {'name': self.procedure.name, 'args': len(self.args), 'keys': self.keys, 'body': body}

    def is_record(self, index):
        """Whether this argument is a key's record."""
        return any(key[1:] == ['arg', index] for key in self.keys)

    # The head.

    def claim_name(self, at, name):
        """Refuses a name that stands for something else already."""
        for known, what in ((self.args, 'an argument'), (self.key_names, 'a record of this procedure'),
                            (self.records.found, 'a record'), (self.locals, 'a local')):
            if name in known:
                raise Mistake(at, f'{name} is {what} already')

    def add_parameter(self, index, parameter):
        self.claim_name(parameter.at, parameter.name)
        self.args[parameter.name] = index
        if parameter.mode:
            self.key_names[parameter.name] = self.add_key(parameter.at, [parameter.mode, 'arg', index])

    def add_key(self, at, key):
        if len(self.keys) == MOST_KEYS[self.version or 2]:
            raise Mistake(at, f'a procedure has {len(self.keys)} keys at most'
                          + (' in version 1' if self.version == 1 else ''))
        self.keys.append(key)
        self.needs_version_two |= len(self.keys) > MOST_KEYS[1]
        return len(self.keys) - 1

    def add_using(self, using):
        place = using.place
        if using.is_through:
            key = [using.mode, 'through', self.source(place)]
        elif place.name in self.args:
            self.without_index(place)
            self.used.add(place.name)
            key = [using.mode, 'arg', self.args[place.name]]
        else:
            key = [using.mode, 'fixed', self.records.number(place)]
        if using.name:
            self.claim_name(using.at, using.name)
            self.key_names[using.name] = self.add_key(using.at, key)
        elif key[1] != 'fixed':
            raise Mistake(using.at, 'this record needs a name: "as" and the name follow')
        elif key[2] in self.fixed:
            raise Mistake(using.at, f'{place} is listed already: with "as" it can have another name')
        else:
            self.fixed[key[2]] = self.add_key(using.at, key)

    def source(self, place):
        """The key whose record holds the number of the indirect one."""
        if any(key[1] == 'through' for key in self.keys):
            raise Mistake(place.at, 'a procedure has one record through another at most')
        if place.name in self.key_names:
            self.without_index(place)
            self.used.add(place.name)
            return self.key_names[place.name]
        if place.name in self.args:
            raise Mistake(place.at, f'{place.name} is a number: declare it as read {place.name}')
        number = self.records.number(place)
        if number not in self.fixed:
            raise Mistake(place.at, f'{place} has to be listed before, as in: using read {place}, ..')
        return self.fixed[number]

    @staticmethod
    def without_index(place):
        if place.index is not None:
            raise Mistake(place.at, f'{place.name} has no index')

    # Names in the body.

    def key_of(self, place):
        """The key that a name stands for, if it is not the name of a number."""
        if place.name in self.key_names:
            self.without_index(place)
            self.used.add(place.name)
            return self.key_names[place.name]
        number = self.records.number(place)
        if number not in self.fixed:
            self.fixed[number] = self.add_key(place.at, ['read', 'fixed', number])
            self.unlisted.add(self.fixed[number])
        return self.fixed[number]

    def local(self, place):
        self.without_index(place)
        if place.name not in self.known:
            raise Mistake(place.at, f'{place.name} has no value on some way to here: let {place.name} = .. gives one')
        return self.locals[place.name]

    def value(self, node):
        """The JSON of an expression."""
        if isinstance(node, Number):
            return node.value
        if isinstance(node, NumberOf):
            return self.number_of(node.place)
        if isinstance(node, Operation):
            return [node.word, *map(self.value, node.operands)]
        if node.name in self.locals:
            return ['local', self.local(node)]
        if node.name in self.args and node.name not in self.key_names:
            self.without_index(node)
            self.used.add(node.name)
            return ['arg', self.args[node.name]]
        return ['key', self.key_of(node)]

    def number_of(self, place):
        if place.name not in self.args:
            if place.name in self.key_names:
                raise Mistake(place.at, f'{place.name} is no argument, so its number is not known here')
            return self.records.number(place)
        self.without_index(place)
        self.used.add(place.name)
        return ['arg', self.args[place.name]]

    # Statements.

    def statements(self, nodes):
        forms = {Let: self.let, Set: self.set, If: self.choice, Repeat: self.repeat, Abort: self.abort,
                 Reply: self.reply}
        return [forms[type(node)](node) for node in nodes]

    def let(self, node):
        value = self.value(node.value)
        if node.name in self.known:
            raise Mistake(node.at, f'there is a local {node.name} already: {node.name} = .. gives it another value')
        if node.name not in self.locals:
            self.claim_name(node.at, node.name)
            if len(self.locals) == LOCALS:
                raise Mistake(node.at, f'a procedure has {LOCALS} locals at most')
            self.locals[node.name] = len(self.locals)
        self.known.add(node.name)
        return ['let', self.locals[node.name], value]

    def set(self, node):
        place = node.place
        if place.name in self.locals:
            word, index, read = 'let', self.local(place), 'local'
        elif place.name in self.args and place.name not in self.key_names:
            raise Mistake(place.at, f'{place.name} is a number, which a call gives: only records and locals are set')
        else:
            word, index, read = 'set', self.key_of(place), 'key'
            self.become_written(place, index)
        value = self.value(node.value)
        return [word, index, [node.operator, [read, index], value] if node.operator else value]

    def become_written(self, place, index):
        if index in self.unlisted:
            self.keys[index][0] = 'write'
        if self.keys[index][0] == 'read':
            raise Mistake(place.at, f'{place} is only read: declare it as write {place}')

    def choice(self, node):
        test = self.value(node.test)
        before = set(self.known)
        first = self.statements(node.first)
        known, self.known = self.known, before
        second = self.statements(node.second)
        self.known &= known
        return ['if', test, first, second]

    def repeat(self, node):
        if self.version == 1:
            raise Mistake(node.at, 'version 1 has no repeat')
        self.needs_version_two = True
        before = set(self.known)
        body = self.statements(node.body)
        if node.count == 0:
            self.known = before
        return ['repeat', node.count, body]

    def abort(self, node):
        if isinstance(node.code, int):
            return ['abort', node.code]
        if node.code.index is not None or node.code.name not in self.codes:
            raise Mistake(node.code.at, f'there is no code {node.code}')
        return ['abort', self.codes[node.code.name]]

    def reply(self, node):
        return ['reply', self.value(node.value)]
