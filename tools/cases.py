"""Reads the cases of scenarios/ and examples/: what each gives to the program, and what has to be printed.

scenarios/README.md says how a case is written: in a file of several, in files of one name, or as a row of a table.
"""
import re
import shlex
import subprocess
from pathlib import Path
from typing import List, NamedTuple, Union

TOP = Path(__file__).resolve().parent.parent
FOLDERS = ('scenarios', 'examples')
# What `vll serve` is tried with, by tools/trials.
SERVICE = 'examples/serve'
# The name of a file that is part of a case: that of the case, which part it is, and whether a script prints it.
PART = re.compile(r'(.+)\.(?:(json|out)(\.sh)?|judge|args)')
# In a file of several cases, the line that begins one and names it, and the line behind its scenario.
BEGIN = re.compile(rb'^==== (.*)\n', re.MULTILINE)
BAR = re.compile(rb'^----( judged)?\n', re.MULTILINE)
# A cell that begins with @ names a file beside the table, and this one stands for an outcome that is judged.
JUDGED = '@judge'

# An option whose value is the next word.
OPTION = re.compile(rb'--[^=]+')

FAULT = re.compile(rb'^vll: (run|replay|explain|draw|trace|scenario|command line)', re.MULTILINE)
STATUS = {b'run': 1, b'replay': 1, b'explain': 1, b'draw': 1, b'trace': 1, b'scenario': 2, b'command line': 2}


class Case(NamedTuple):
    """What is given to the program, and what it has to print: bytes, or the file that holds them, or the script that
    prints them. If what is printed is judged, that is one lawful outcome or nothing."""
    name: str
    # the beginning of its files' names, or a file and the line in it
    place: str
    words: List[bytes]
    text: Union[bytes, Path]
    printed: Union[bytes, Path, None]
    is_judged: bool = False

    def wanted(self):
        """The bytes that have to be printed; for a judged case one lawful outcome, if there is one."""
        return None if self.printed is None else bytes_of(self.printed)

    def line(self):
        """The first line that has to be printed, with its end, and no bytes if what is printed is judged."""
        return b'' if self.is_judged else self.wanted().partition(b'\n')[0] + b'\n'

    def files(self):
        """The files among the arguments: what is no option, and no value of one."""
        pairs = zip(self.words, self.words[1:])
        return [word for before, word in pairs if not word.startswith(b'-') and not OPTION.fullmatch(before)]

    def is_meant_by(self, word):
        """Whether this is its name, which may stand behind its folder and the name of its file, as run/bodies/NAME."""
        path, _, name = word.rpartition('/')
        return name == self.name and path in self.place


def is_script(source):
    return isinstance(source, Path) and source.suffix == '.sh'


def bytes_of(source, most=-1):
    """The bytes of a source, `most` of them at most."""
    if isinstance(source, bytes):
        return source
    if not is_script(source):
        with open(source, 'rb') as file:
            return file.read(most)
    with subprocess.Popen(['bash', source], stdout=subprocess.PIPE, stderr=subprocess.DEVNULL) as script:
        return script.stdout.read(most)


def status_of(printed):
    """The exit status that goes with what is printed: it follows from the fault line, if there is one."""
    told = FAULT.search(printed)
    return STATUS[told[1]] if told else 0


def standing(path):
    """A file, or the script that prints it, if either is there."""
    script = path.with_name(f'{path.name}.sh')
    return next((found for found in (path, script) if found.is_file()), None)


def words_in(path):
    """The arguments in a file: a line each."""
    return path.read_bytes().split(b'\n')[:-1]


def words_of(text):
    """The arguments in a line or a cell, as a shell reads them."""
    return [word.encode() for word in shlex.split(text)]


class Reader:
    """Reads all cases below a folder, and keeps what cannot be read: a line for each fault."""

    def __init__(self, top):
        self.top = top
        self.cases = []
        self.faults = []
        # the files that rows name, and by which rows
        self.named = {}
        files = [path for folder in FOLDERS for path in sorted((top / folder).rglob('*'))
                 if path.is_file() and top / SERVICE not in path.parents]
        parts = {}
        for path in files:
            part = PART.fullmatch(path.name)
            if path.suffix == '.cases':
                self.read_several(path)
            elif path.suffix == '.tsv':
                self.read_table(path)
            elif part:
                parts.setdefault(path.with_name(part[1]), set()).add(path)
            elif path.name != 'README.md' and not (path.suffix == '.vll' and path.with_suffix('.json') in files):
                self.faults.append(f'{self.place(path)} is no part of a case')
        for path, found in parts.items():
            if not self.are_of_rows(path, found):
                self.try_to(self.read_files, self.place(path), path, found)
        places = {}
        for case in self.cases:
            places.setdefault(case.name, []).append(case.place)
        self.faults += [f'{" and ".join(doubled)} have one name' for doubled in places.values() if len(doubled) > 1]

    def place(self, path):
        return str(path.relative_to(self.top))

    def are_of_rows(self, path, found):
        """Whether files of one name are no case of their own, but belong to the rows that name them."""
        rows = [self.named.get(file, set()) for file in found]
        return all(path.name in names for names in rows) if len(found) > 1 else all(rows)

    def try_to(self, read, place, *given):
        try:
            self.cases.append(read(place, *given))
        except ValueError as why:
            self.faults.append(f'{place}: {why}')

    def read_several(self, path):
        """Reads a file of several cases."""
        head, *parts = BEGIN.split(path.read_bytes())
        if head or not parts:
            self.faults.append(f'{self.place(path)} does not begin with a line ==== and a name')
        line = 1 + head.count(b'\n')
        for name, body in zip(parts[::2], parts[1::2]):
            self.try_to(self.read_part, f'{self.place(path)}:{line}', name, body)
            line += 1 + body.count(b'\n')

    @staticmethod
    def read_part(place, name, body):
        """Reads one of these cases: the command, the scenario, a line ---- and what is printed."""
        command, _, rest = body.partition(b'\n')
        parts = BAR.split(rest)
        if not command.startswith(b'vll ') or len(parts) != 3 or not parts[1] and not parts[2]:
            raise ValueError('it lacks a command, a line ---- after the scenario, or what is printed')
        text, judged, printed = parts
        return Case(name.decode(), place, words_of(command.decode())[1:], text, printed or None, bool(judged))

    @staticmethod
    def read_files(place, path, found):
        """Reads the case whose files begin with this path."""
        parts = [standing(path.with_name(f'{path.name}.{part}')) for part in ('json', 'out', 'judge', 'args')]
        text, printed, judge, words = parts
        if found - set(parts):
            raise ValueError('a part is there, and its script too')
        if not text or not printed and not judge:
            raise ValueError('there is no .json, or neither .out nor .judge')
        usual = b'replay' if 'replay' in place.split('/')[:-1] else b'run'
        return Case(path.name, place, words_in(words) if words else [usual], text, printed, bool(judge))

    def read_table(self, table):
        for number, line in enumerate(table.read_bytes().split(b'\n'), start=1):
            if line and not line.startswith(b'#'):
                self.try_to(self.read_row, f'{self.place(table)}:{number}', table, line)

    def read_row(self, place, table, line):
        """Reads a row: the name, the arguments, what is printed, and the lines of the scenario."""
        cells = line.decode().split('\t')
        if len(cells) < 4:
            raise ValueError(f'there are {len(cells)} cells, and not 4 or more')
        name, words, printed, *lines = cells
        words_file, printed_file, text_file = (self.file(table, name, cell) for cell in (words, printed, lines[0]))
        if text_file and len(lines) > 1:
            raise ValueError(f'there is a cell after {lines[0]}')
        words = words_in(words_file) if words_file else words_of(words)
        text = text_file or '\n'.join([*lines, '']).encode()
        if printed == JUDGED:
            return Case(name, place, words, text, None, True)
        return Case(name, place, words, text, printed_file or f'{printed}\n'.encode())

    def file(self, table, name, cell):
        """The file that a cell of a row names, if it names one."""
        if cell == JUDGED or not cell.startswith('@'):
            return None
        found = standing((table.parent / cell[1:]).resolve())
        if not found:
            raise ValueError(f'there is no {cell[1:]}')
        self.named.setdefault(found, set()).add(name)
        return found


def read_cases(top=TOP):
    """The cases below a folder, by name, and what cannot be read there, a line each."""
    reader = Reader(Path(top).resolve())
    return sorted(reader.cases, key=lambda case: case.name), reader.faults
