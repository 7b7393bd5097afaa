"""Judges what `vll explain` prints of a scenario that is refused.

The first line has to be the fault's, as every command prints it. Behind it an explanation has to stand, which names the
piece that the line tells of, and says what is wrong with it in words that go with the fault.
"""
import re

# The most bytes that are printed, as docs/SCENARIO.md says.
MOST_BYTES = 20 * 1024

# What is named if the scenario was not read to its end.
INPUT = 'standard input|the file'
LISTS = 'records', 'procs', 'clients', 'schedule'
SIZES = 'records', 'procs', 'clients', 'cap', 'bits', 'limit', 'schedule'
# By the number of a test, what is said of a procedure and of a call that fail it.
CHECKS = {
    1: r'arguments, but at most 8 are allowed', 2: r'keys, but version', 3: r'argument \d+ is not declared',
    4: r'there is no record \d+', 5: r'key \d+ is not declared', 6: r'key \d+ is set, but is a "read" key',
    7: r'argument \d+ is not declared', 8: r'there is no local \d+', 9: r'local \d+ is read before it is surely set',
    10: r'more than 8 replies', 11: r'more than 32 deep',
    12: r'more than 1024 nodes', 13: r'its source is key \d+',
    14: r'"through" key, and so is key \d+', 15: r'turns, but at most 64 are allowed',
    16: r'weighs more than 65536'}
# Where in the procedure that is.
PLACES = {1: 'args', 2: 'keys', 3: r'keys, key \d+', 4: r'keys, key \d+', 13: r'keys, key \d+', 14: r'keys, key \d+',
          10: 'body', 12: 'body', 16: 'body'}
CALLS = {
    1: r'no procedure has the name', 2: r'number of arguments of ".*" must be \d+, not \d+',
    3: r'there is no record \d+, which key \d+ of ".*" takes from argument \d+'}
# What is told of a number: the number, and dots if it is cut.
QUOTED = re.compile(rb'^why: (?:.* begins with .*, not with )?(-?\d[-+.\deE]*?)(\.\.)?(?: is not an? | does not say |;)',
                    re.MULTILINE)
# What is said of a command line that is refused: the reason, perhaps a tip and how to use it, and how to get help.
REFUSAL = re.compile(rb"error: [^\n]+\n(?:[^\n]*\n)*\nFor more information, try '--help'\.\n")
NAMED = r'( \("(?:[^"\\]|\\.)*"\))?'


def pieces_of(words):
    """How the place and the reason have to begin or what they have to hold, by the words of a fault, as patterns."""
    kind = words[0]
    if kind == 'shape':
        part, index = words[1:]
        if part == 'top':
            return 'the scenario$', ''
        return (rf'{part}( {index}{NAMED}(, .*)?)?$' if part in LISTS else rf'{part}$'), ''
    if kind == 'check':
        number = int(words[2])
        return rf'procs {words[1]}{NAMED}, {PLACES.get(number, "body, .*")}$', CHECKS[number]
    if kind == 'call':
        number = int(words[3])
        return rf'clients {words[1]}, call {words[2]}$', CALLS[number]
    return {
        'size': (rf'({INPUT}|{"|".join(SIZES)})$',
                 r'more than 16777216 bytes|\d+ is not in the range \d+ to'),
        'json': (r'line \d+, column \d+$', r'^(invalid JSON|EOF while parsing|number out of range|.* more than 127 deep)$'),
        'name': ('procs$', r'procs \d+ and procs \d+ both have the name "'),
        'read': (f'({INPUT})$', 'cannot be read'),
        'no': (f'({INPUT})$', 'not enough memory'),
    }[kind]


def is_command_line(words, said):
    """Whether this says why the program does not accept these words: nothing if one of them is no text."""
    try:
        b' '.join(words).decode()
    except UnicodeError:
        return not said
    return bool(REFUSAL.fullmatch(said))


def unexplained(line, printed):
    """Why a text does not explain the fault of a line, if it does not."""
    if not printed.startswith(line):
        return f'the first line is not {line!r}, but {printed[:80]!r}'
    if len(printed) > MOST_BYTES or not re.fullmatch(rb'[ -~\n]*', printed):
        return 'it is too long, or has characters other than printable ASCII'
    told = re.fullmatch(r'at: (.+)\nwhy: (.+)\n', printed[len(line):].decode())
    if not told:
        return f'no explanation follows the line: {printed[len(line):][:200]!r}'
    place, why = told.groups()
    if 'a second look' in why:
        return f'the mistake was not found: {why!r}'
    for pattern, text in zip(pieces_of(line.decode().split()[2:]), (place, why)):
        if not re.search(('^' if text is place else '') + pattern, text):
            return f'{text!r} is not of the form {pattern!r}'
    return None


def is_as_written(printed, text):
    """Whether the number that an explanation quotes, if it quotes one, stands so in the text of the scenario."""
    quoted = QUOTED.search(printed)
    if not quoted:
        return True
    number, dots = quoted.groups()
    behind = rb'[-+.\deE]' if dots else rb'(?![-+.\w])'
    return bool(re.search(rb'(?<![-+.\w])' + re.escape(number) + behind, text))
