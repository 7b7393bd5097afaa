"""From the parts of a text to the tree of its scenario."""
from .body import Body
from .language import MOST_CALLS, MOST_PROCEDURES, MOST_RECORDS
from .parser import Parser
from .parts import At, Mistake, Number


class Records:
    """The records by their names."""

    def __init__(self, records):
        self.total = 0
        self.found = {}
        for record in records:
            if record.name in self.found:
                raise Mistake(record.at, f'there is a record {record.name} already')
            self.found[record.name] = self.total, record.count
            self.total += record.count or 1
            if self.total > MOST_RECORDS:
                raise Mistake(record.at, f'there are {MOST_RECORDS} records at most')

    def number(self, place):
        """The number of the record that is named."""
        if place.name not in self.found:
            raise Mistake(place.at, f'there is no {place.name} here')
        first, count = self.found[place.name]
        if (place.index is None) != (count is None):
            raise Mistake(place.at, f'{place.name} is one record, without an index' if count is None else
                          f'{place.name} is {count} records: an index says which, as {place.name}[0]')
        if place.index is not None and place.index >= count:
            raise Mistake(place.at, f'{place.name} has {count} records, from {place.name}[0] on')
        return first + (place.index or 0)

    def opening_values(self, record):
        """What a record holds at the start, or each of an array: one value stands for all."""
        values = [self.constant(value) for value in record.values]
        return values * (record.count or 1) if len(values) == 1 else values

    def constant(self, value):
        return value.value if isinstance(value, Number) else self.number(value)


class Scripts:
    """Makes the calls of the clients."""

    def __init__(self, records, bodies):
        self.records = records
        self.bodies = bodies
        self.calls = 0

    def script(self, calls):
        return [self.call(call) for call in calls]

    def call(self, call):
        self.calls += 1
        if self.calls > MOST_CALLS:
            raise Mistake(call.at, f'there are {MOST_CALLS} calls at most')
        body = self.bodies.get(call.name)
        if not body:
            raise Mistake(call.at, f'there is no procedure {call.name}')
        if len(call.args) != len(body.args):
            raise Mistake(call.at, f'{call.name} takes {len(body.args)} arguments, and here are {len(call.args)}')
        for index, (name, value) in enumerate(zip(body.args, call.args)):
            if body.is_record(index) and isinstance(value, Number):
                raise Mistake(value.at, f'the argument {name} of {call.name} is a record, and not a number')
        return {'proc': call.name, 'args': [self.records.constant(value) for value in call.args]}


def codes_of(program):
    codes = {}
    for code in program.codes:
        if code.name in codes:
            raise Mistake(code.at, f'there is a code {code.name} already')
        codes[code.name] = code.number
    return codes


def bodies_of(program, records):
    """The procedures by their names."""
    codes, version = codes_of(program), program.options.get('version')
    bodies = {}
    for procedure in program.procedures:
        if procedure.name in bodies:
            raise Mistake(procedure.at, f'there is a procedure {procedure.name} already')
        if len(bodies) == MOST_PROCEDURES:
            raise Mistake(procedure.at, f'there are {MOST_PROCEDURES} procedures at most')
        bodies[procedure.name] = Body(procedure, records, codes, version)
    return bodies


def scenario_of(text):
    """The scenario that a text describes, as the tree of its JSON. Its version is the lowest that has what it uses,
    unless it states one."""
    program = Parser(text).program()
    records = Records(program.records)
    if not program.records:
        raise Mistake(At(1, 1), 'there is no record')
    bodies = bodies_of(program, records)
    procedures = [body.compiled() for body in bodies.values()]
    scripts = Scripts(records, bodies)
    return {
        'version': 2 if any(body.needs_version_two for body in bodies.values()) else 1,
        'records': [value for record in program.records for value in records.opening_values(record)],
        'procs': procedures,
        'clients': [scripts.script(calls) for calls in program.clients],
        **program.options,
    }
