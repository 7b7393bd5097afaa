"""The parts of a text, as they are parsed."""
from typing import Any, List, NamedTuple, Optional, Tuple


class At(NamedTuple):
    """A place in a text, from 1."""
    line: int
    column: int


class Mistake(Exception):
    """What is wrong in a text, and where."""

    def __init__(self, at, why):
        super().__init__(why)
        self.at = at


class Number(NamedTuple):
    at: At
    value: int
    depth: int = 1


class Place(NamedTuple):
    """A name, perhaps with an index: a record, an argument, a key or a local."""
    at: At
    name: str
    index: Optional[int]
    depth: int = 1

    def __str__(self):
        return self.name if self.index is None else f'{self.name}[{self.index}]'


class NumberOf(NamedTuple):
    """number(PLACE): the number of a record."""
    at: At
    place: Place
    depth: int = 1


class Operation(NamedTuple):
    at: At
    word: str
    operands: Tuple
    depth: int


class Let(NamedTuple):
    at: At
    name: str
    value: Any


class Set(NamedTuple):
    """PLACE = value; with the operator of +=, if it is one of these."""
    at: At
    place: Place
    operator: Optional[str]
    value: Any


class If(NamedTuple):
    at: At
    test: Any
    first: List
    second: List


class Repeat(NamedTuple):
    at: At
    count: int
    body: List


class Abort(NamedTuple):
    at: At
    code: Any


class Reply(NamedTuple):
    at: At
    value: Any


class Record(NamedTuple):
    at: At
    name: str
    count: Optional[int]
    values: List


class Code(NamedTuple):
    at: At
    name: str
    number: int


class Parameter(NamedTuple):
    """An argument: a record that is read or written, or a number, without a mode."""
    at: At
    mode: Optional[str]
    name: str


class Using(NamedTuple):
    at: At
    mode: str
    is_through: bool
    place: Place
    name: Optional[str]


class Procedure(NamedTuple):
    at: At
    name: str
    parameters: List
    using: List
    body: List


class Call(NamedTuple):
    at: At
    name: str
    args: List


class Program:
    """All parts of a text, in its order."""

    def __init__(self):
        self.records = []
        self.codes = []
        self.procedures = []
        self.clients = []
        self.options = {}
