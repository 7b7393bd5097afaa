"""What `tools/trials texts` tries: scenarios are written as texts, and these are compiled again.

The scenarios are those of scenarios/ and examples/ that run, but for very large ones, and random ones: half have a
schedule, half are for `vll run`. What a text compiles to has to be the scenario itself, as a tree of JSON: only the
locals of a procedure may have other numbers, each another one. The random ones are run too: the program has to print
the same of both schedules, and of a compiled one an outcome that tools/judge_outcome.py finds lawful for the scenario
itself. Each text in examples/ has to compile to the scenario beside it.
"""
import json
import sys

import judge_outcome
from cases import TOP, bytes_of, read_cases
from generate import SIZES, scenario_of
from model import Unlawful
from running import called

sys.path.insert(0, str(TOP / 'clients'))
# pylint: disable=wrong-import-position
import vllc  # noqa: E402

MOST_BYTES = 1 << 20
SEEDS = 300


def is_same(left, right, numbers):
    """Whether two bodies are the same but for the numbers of locals; `numbers` gets those of the right, by the left."""
    if not isinstance(left, list) or not isinstance(right, list):
        return type(left) is type(right) and left == right
    if len(left) != len(right):
        return False
    if left and left[0] in ('let', 'local') and isinstance(left[1], int):
        is_so = left[0] == right[0] and numbers.setdefault(left[1], right[1]) == right[1]
        return is_so and is_same(left[2:], right[2:], numbers)
    return all(is_same(*parts, numbers) for parts in zip(left, right))


def difference(scenario, compiled):
    """The first part in which two scenarios differ, if they do."""
    for part in sorted(set(scenario) | set(compiled)):
        if part != 'procs' and scenario.get(part, 'absent') != compiled.get(part, 'absent'):
            return part
    if len(scenario['procs']) != len(compiled['procs']):
        return 'procs'
    for index, (left, right) in enumerate(zip(scenario['procs'], compiled['procs'])):
        numbers = {}
        is_so = is_same(left['body'], right['body'], numbers) and len(set(numbers.values())) == len(numbers)
        if not is_so or {**left, 'body': 0} != {**right, 'body': 0}:
            return f'procs {index}'
    return None


def printed(program, kind, scenario):
    ran = called([program, kind], json.dumps(scenario).encode())
    if ran.returncode or ran.stderr:
        raise Unlawful(f'status {ran.returncode}; it printed {ran.stdout[:200]!r}')
    return ran.stdout


def faults(name, scenario, kind=None, program=None):
    """Why a scenario and what its text compiles to are not the same, if they are not."""
    try:
        compiled = json.loads(vllc.compiled_json(vllc.text_of(scenario)))
        differs = difference(scenario, compiled)
        if differs:
            yield f'{name}: {differs} differs'
        elif kind == 'replay' and printed(program, kind, scenario) != printed(program, kind, compiled):
            yield f'{name}: the replays differ'
        elif kind == 'run':
            judge_outcome.judge(scenario, printed(program, kind, compiled).decode())
    except (ValueError, vllc.Mistake, Unlawful) as why:
        yield f'{name}: {why}'


def of_examples(_):
    for path in sorted((TOP / 'examples').rglob('*.json')):
        text = path.with_suffix('.vll')
        if not text.is_file():
            yield f'{text.name} is missing'
        elif json.loads(vllc.compiled_json(text.read_text())) != json.loads(path.read_text()):
            yield f'{text.name} is not {path.name}'


def of_cases(_):
    """Those that run."""
    for case in read_cases()[0]:
        text = bytes_of(case.text, MOST_BYTES + 1)
        if not case.line().startswith(b'vll: ') and len(text) <= MOST_BYTES:
            yield from faults(case.place, json.loads(text))


def of_seeds(program):
    for number in range(SEEDS):
        kind, seed = ('replay', 'run')[number % 2], number // 2
        yield from faults(f'{kind} {seed}', scenario_of(kind, seed, SIZES[kind])[0], kind, program)


def texts(words, _):
    for trial in of_examples, of_cases, of_seeds:
        yield f'texts {trial.__name__.replace("_", " ")}', trial(words.program)
