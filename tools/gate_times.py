#!/usr/bin/env python3
"""Runs a command, such as `rt ci`, and writes down how much processor time each crate took meanwhile.

    python3 tools/gate_times.py FILE rt ci

The output and the status are the command's. The file gets a table of processor minutes, a line for each crate: for its
proof, for its tests' proof, for what its must-fail edits begin from, for these edits, and in all; then the sum, and the
edits that took most, in processor seconds. What was proved or refused before, and kept, takes no time; `rt ci --anew`
does everything again.

The minutes are those of the prover's processes that run below this command, sampled several times a second.
"""
import os
import subprocess
import sys
from collections import Counter
from pathlib import Path

KINDS = 'proof', 'tests', 'seed', 'edits'
MOST_EDITS = 10
SECONDS_BETWEEN = 0.2
TICKS = os.sysconf('SC_CLK_TCK')


def work_of(words, folder):
    """Whose work the prover does that was called so in this folder: the crate, one of KINDS, and the number of an edit,
    if it is told. None for others. An edit is checked in a copy of the crate, over a folder that has its number."""
    if not words[0].endswith('/rattle') or '--crate-name' not in words[:-1]:
        return None
    crate = words[words.index('--crate-name') + 1]
    if '--test' in words:
        return crate, 'tests', None
    if folder.endswith(f'/crates/{crate}'):
        return crate, 'proof', None
    over = words[words.index('--incremental') + 1] if '--incremental' in words[:-1] else ''
    name = over.rpartition('/')[2]
    return (crate, 'seed', None) if name == 'seed' else (crate, 'edits', int(name) if name.isdigit() else None)


def processes():
    """Of each process its number, its parent's, the moment it began, its seconds, its words and its folder."""
    for folder in Path('/proc').iterdir():
        if folder.name.isdigit():
            try:
                # The name stands in brackets, and may hold blanks itself.
                numbers = (folder / 'stat').read_text().rpartition(')')[2].split()
                words = (folder / 'cmdline').read_bytes().decode(errors='replace').split('\0')
                seconds = (int(numbers[11]) + int(numbers[12])) / TICKS
                yield int(folder.name), int(numbers[1]), numbers[19], seconds, words, os.readlink(folder / 'cwd')
            except OSError:
                continue


def look(top, seen):
    """Keeps the seconds of the prover's processes below this one, by the work, their number and when they began."""
    found = list(processes())
    parents = {number: parent for number, parent, *_ in found}
    for number, _, began, seconds, words, folder in found:
        work, above = work_of(words, folder), number
        while above in parents and above != top:
            above = parents[above]
        if work and above == top:
            seen[work, number, began] = seconds


def lines_of(seen):
    """The lines of the table, the largest crate first, and those of the edits that took most, which are told by their
    numbers: as rt does, they are counted by their names."""
    by_crate, by_edit = {}, Counter()
    for ((crate, kind, number), *_), seconds in seen.items():
        by_crate.setdefault(crate, Counter())[kind] += seconds
        if number is not None:
            by_edit[crate, number] += seconds
    yield f'{"processor minutes":20}' + ''.join(f'{kind:>8}' for kind in (*KINDS, 'all'))
    rows = sorted(by_crate.items(), key=lambda row: -sum(row[1].values()))
    for crate, seconds in [*rows, ('all', sum(by_crate.values(), Counter()))]:
        cells = [*(seconds[kind] for kind in KINDS), sum(seconds.values())]
        yield f'{crate:20}' + ''.join(f'{cell / 60:8.1f}' for cell in cells)
    for (crate, number), seconds in by_edit.most_common(MOST_EDITS):
        names = sorted(path.stem for path in Path('crates', crate, 'must-fail').glob('*.edit'))
        yield f'{seconds:6.0f} processor seconds: edit {crate} {names[number] if number < len(names) else number}'


def main(words):
    if len(words) < 2:
        print(__doc__.strip(), file=sys.stderr)
        return 2
    command, seen = subprocess.Popen(words[1:]), {}
    while True:
        try:
            status = command.wait(SECONDS_BETWEEN)
            break
        except subprocess.TimeoutExpired:
            look(command.pid, seen)
    Path(words[0]).write_text('\n'.join(lines_of(seen)) + '\n')
    return status


if __name__ == '__main__':
    sys.exit(main(sys.argv[1:]))
