"""The words, numbers and signs of a text."""
import re
from typing import NamedTuple

from .parts import At, Mistake

TOKEN = re.compile(r'''
    (?P<space> \s+ | \#[^\n]* )
  | (?P<number> [0-9]+ (?![A-Za-z0-9_]) )
  | (?P<name> [A-Za-z_] [A-Za-z0-9_]* )
  | (?P<text> " (?: [^"\\\n] | \\. )* " )
  | (?P<sign> [-+*/%<>=!]= | [-+*/%<>=(){}\[\],;] )
''', re.VERBOSE)


class Token(NamedTuple):
    kind: str
    text: str
    at: At

    def __str__(self):
        return 'the end' if self.kind == 'end' else f'"{self.text}"'


def mistake_at(character):
    """Why nothing begins with a character."""
    if character == '"':
        return 'this name has no end in its line'
    return 'a number is followed by a letter' if character.isdecimal() else f'{character!r} begins nothing'


def tokens_of(text):
    """The words, numbers and signs of a text, and its end."""
    tokens, line, start, at = [], 1, 0, 0
    while at < len(text):
        found = TOKEN.match(text, at)
        if not found:
            raise Mistake(At(line, at - start + 1), mistake_at(text[at]))
        if found.lastgroup != 'space':
            tokens.append(Token(found.lastgroup, found[0], At(line, at - start + 1)))
        elif '\n' in found[0]:
            line += found[0].count('\n')
            start = at + found[0].rindex('\n') + 1
        at = found.end()
    return [*tokens, Token('end', '', At(line, at - start + 1))]
