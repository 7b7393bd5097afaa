#!/usr/bin/env python3
"""Compiles a scenario that is written as text into the JSON that vll reads, and writes a scenario as such a text.

    clients/vllc.py bank.vll > bank.json
    clients/vllc.py --text bank.json > bank.vll

The file - is standard input. --help prints the language. A mistake is reported with its line and column on standard
error, with status 2. It needs Python 3.8 or later.
"""
import argparse
import json
import sys

from vll_text import language
from vll_text.compiler import scenario_of
from vll_text.language import MOST_BYTES
from vll_text.parts import At, Mistake
from vll_text.writer import text_of


def compact(tree):
    return json.dumps(tree, separators=(',', ':'))


def json_of(scenario):
    """The JSON of a scenario, with a line for each statement, script and option."""
    def procedure(tree):
        head = compact({word: tree[word] for word in ('name', 'args', 'keys')})[:-1]
        body = ',\n           '.join(map(compact, tree['body']))
        return f'  {head},\n   "body":[{body}]}}'

    def member(word, tree):
        if word == 'procs':
            lines = ',\n'.join(map(procedure, tree))
        elif word == 'clients':
            lines = ',\n'.join(f'  [{calls}]' for calls in (',\n   '.join(map(compact, script)) for script in tree))
        else:
            return f'"{word}":{compact(tree)}'
        return f'"{word}":[\n{lines}]' if lines else f'"{word}":[]'
    return '{' + ',\n '.join(member(*item) for item in scenario.items()) + '}\n'


def digits(text):
    """A number of a scenario, which has no sign."""
    if text.startswith('-'):
        raise ValueError(f'{text} has a sign')
    return int(text)


def refused(text):
    raise ValueError(f'{text} is no whole number')


def read(path):
    """The characters of a file, which have to be UTF-8."""
    if path == '-':
        given = sys.stdin.buffer.read()
    else:
        with open(path, 'rb') as file:
            given = file.read()
    try:
        return given.decode()
    except UnicodeDecodeError as why:
        before = given[:why.start].decode()
        line = before.count('\n')
        raise Mistake(At(line + 1, len(before) - before.rfind('\n')), 'these bytes are not UTF-8') from why


def compiled_json(text):
    """The JSON of the scenario that a text describes."""
    found = json_of(scenario_of(text))
    if len(found) > MOST_BYTES:
        raise Mistake(At(1, 1), f'the scenario has {len(found)} bytes, and {MOST_BYTES} is the most')
    return found


def text_of_json(text):
    """The text of the scenario that is JSON."""
    try:
        return text_of(json.loads(text, parse_int=digits, parse_float=refused, parse_constant=refused))
    except (ValueError, RecursionError) as why:
        raise ValueError(f'this is no scenario that vll accepts, as vll explain may tell: {why}') from why


def main():
    parser = argparse.ArgumentParser(
        description='Compiles a scenario from text to JSON.', epilog=language.__doc__.partition('\n\n')[2],
        formatter_class=argparse.RawDescriptionHelpFormatter)
    parser.add_argument('--text', action='store_true', help='write the text of a scenario that is JSON')
    parser.add_argument('file', metavar='FILE', help='the text, or the JSON; - is standard input')
    words = parser.parse_args()
    try:
        given = read(words.file)
        made = text_of_json(given) if words.text else compiled_json(given)
    except Mistake as mistake:
        print(f'{words.file}:{mistake.at.line}:{mistake.at.column}: {mistake}', file=sys.stderr)
        return 2
    except (OSError, ValueError) as why:
        print(f'{words.file}: {why}', file=sys.stderr)
        return 2
    sys.stdout.write(made)
    return 0


if __name__ == '__main__':
    sys.exit(main())
