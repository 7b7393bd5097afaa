"""What limits the body of a procedure."""
from typing import NamedTuple

from .language import MOST_DEEP, MOST_NODES, MOST_REPLIES, MOST_WEIGHT
from .parts import Mistake


class Measures(NamedTuple):
    """The measures of a part of a body, which the limits of a body are about."""
    replies: int
    depth: int
    nodes: int
    weight: int


def in_a_row(parts):
    """The measures of statements that follow each other, or of operands."""
    parts = list(parts)
    return Measures(sum(part.replies for part in parts), max([part.depth for part in parts], default=0),
                    sum(part.nodes for part in parts), sum(part.weight for part in parts))


def measures_of(tree):
    """The measures of a statement or an expression, as docs/SCENARIO.md has them."""
    word, *parts = [tree] if isinstance(tree, int) else tree
    replies = turns = 1
    if word == 'repeat':
        turns, inside = parts[0], in_a_row(map(measures_of, parts[1]))
        replies = turns * inside.replies
    elif word == 'if':
        lists = [in_a_row(map(measures_of, part)) for part in parts[1:]]
        inside = in_a_row([measures_of(parts[0]), *lists])
        replies = max(part.replies for part in lists)
    else:
        leaf = isinstance(tree, int) or word in ('arg', 'key', 'local', 'abort')
        inside = in_a_row(map(measures_of, [] if leaf else parts[1:] if word in ('let', 'set') else parts))
        replies = int(word == 'reply')
    return Measures(replies, 1 + inside.depth, 1 + inside.nodes, 1 + turns * inside.weight)


def measure(nodes, body):
    """Refuses a body that passes a limit, at the statement with which it does."""
    total = in_a_row([])
    for node, tree in zip(nodes, body):
        total = in_a_row([total, measures_of(tree)])
        for most, measure_of, what in ((MOST_REPLIES, total.replies, 'replies'), (MOST_DEEP, total.depth, 'levels'),
                                       (MOST_NODES, total.nodes, 'nodes'),
                                       (MOST_WEIGHT, total.weight, 'nodes, those of repeats counted in each turn')):
            if measure_of > most:
                raise Mistake(node.at, f'up to here a body has {measure_of} {what}, and {most} is the most')
