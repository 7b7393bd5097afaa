"""Judges what `vll trace` prints of a scenario: the scenario with a schedule that the machine of the model takes.

    python3 tools/judge_trace.py SCENARIO TRACED

Prints the first thing that is wrong, with status 1.
"""
import json
import sys
from pathlib import Path

import judge_outcome
import replay_model
from model import Unlawful, lines_of

# The members that a trace writes anew.
WRITTEN = ['cap', 'bits', 'limit', 'schedule']


def others_of(scenario):
    """The members that a trace repeats."""
    return {name: member for name, member in scenario.items() if name not in WRITTEN}


def judge(scenario, text):
    """Raises Unlawful where a text is not the scenario with the schedule of a run of it."""
    try:
        traced = json.loads(text)
    except ValueError as why:
        raise Unlawful(f'it is no JSON: {why}') from why
    if others_of(traced) != others_of(scenario):
        raise Unlawful('a member differs from the scenario')
    lines = lines_of(replay_model.replay_text(traced))
    events = len(traced['schedule'])
    for line in lines[:events]:
        if line.split()[1] == 'refused':
            raise Unlawful(f'the machine refuses an event: {line}')
    judge_outcome.judge(scenario, ''.join(f'{line}\n' for line in lines[events:]))


if __name__ == '__main__':
    if len(sys.argv) != 3:
        sys.exit('usage: python3 tools/judge_trace.py SCENARIO TRACED')
    try:
        judge(json.loads(Path(sys.argv[1]).read_bytes()), Path(sys.argv[2]).read_bytes().decode())
    except Unlawful as unlawful:
        print(f'{sys.argv[2]}: {unlawful}')
        sys.exit(1)
