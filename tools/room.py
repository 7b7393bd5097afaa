#!/usr/bin/env python3
"""Says how much disk and memory the whole of `./test` wants and how much there is; with status 1 if it could not end.

    python3 tools/room.py           at the top of the repository; what could go is named, and nothing removed
    python3 tools/room.py --jobs    prints how many checks `rt ci` should run at a time here, for RT_JOBS: as many as
                                    there are processors, or fewer where the free memory holds fewer. It prints nothing
                                    if that is below two: `rt ci` had better choose for itself then

Processors and memory are those of the control group too, if the machine is a container.
"""
import os
import re
import shutil
import sys
import tempfile
from pathlib import Path

TOP = Path(__file__).resolve().parent.parent
GB = 1_000_000_000

# Room for a run from nothing, with a margin: on the disk of the checkout, where what `rt ci` keeps mostly lies too
# (1.1 GB were seen), and for the copies, among the temporary files, in which edits are tried.
BYTES_OF_OUT = 4 * GB
BYTES_OF_COPIES = 3 * GB
# `rt ci` keeps nothing of what passed on a disk with less left than this, and its program is not built on a full one.
BYTES_LEFT = 5 * GB
# What the largest check has been seen to take, with its tests and one job.
BYTES_OF_A_CHECK = 4_300_000_000


def numbers_in(*files):
    """The first number of each file, or of its line of free memory; None if one has none, or is not there."""
    found = []
    for file in files:
        try:
            number = re.search(r'(?:^|^MemAvailable:)\s*(-?\d+)', Path(file).read_text(), re.MULTILINE)
        except OSError:
            number = None
        found.append(int(number[1]) if number else None)
    return None if None in found else found


def processors(group='/sys/fs/cgroup'):
    """How many processors this process may use, and its control group."""
    try:
        quota = [int(word) for word in Path(group, 'cpu.max').read_text().split()]
    except (OSError, ValueError):
        quota = numbers_in(f'{group}/cpu/cpu.cfs_quota_us', f'{group}/cpu/cpu.cfs_period_us')
    own = len(os.sched_getaffinity(0))
    return min(own, max(quota[0] // quota[1], 1)) if quota and quota[0] > 0 else own


def memory(meminfo='/proc/meminfo', group='/sys/fs/cgroup'):
    """The bytes of memory that are free, of the control group too; None if nothing tells."""
    free = numbers_in(meminfo)
    left = [1024 * free[0]] if free else []
    for limit, held in (('memory.max', 'memory.current'),
                        ('memory/memory.limit_in_bytes', 'memory/memory.usage_in_bytes')):
        found = numbers_in(f'{group}/{limit}', f'{group}/{held}')
        left += [max(found[0] - found[1], 0)] if found else []
    return min(left, default=None)


def disks():
    """For each disk: the places on it, the bytes wanted there, and those that are left."""
    by_disk = {}
    for place, wanted in (str(TOP), BYTES_OF_OUT), (tempfile.gettempdir(), BYTES_OF_COPIES):
        names, sum_of = by_disk.get(os.stat(place).st_dev, ([], BYTES_LEFT))
        by_disk[os.stat(place).st_dev] = [*names, place], sum_of + wanted
    return [(' and '.join(names), wanted, shutil.disk_usage(names[0]).free) for names, wanted in by_disk.values()]


def main(words):
    left = memory()
    if words == ['--jobs']:
        jobs = processors() if left is None else min(processors(), left // BYTES_OF_A_CHECK)
        print(jobs if jobs >= 2 else '')
        return 0
    lacks_memory, lacks_disk = left is not None and left < BYTES_OF_A_CHECK, False
    if left is not None:
        print(f'room: a check takes up to {BYTES_OF_A_CHECK / GB:.1f} GB of memory, and {left / GB:.1f} are free')
    for place, wanted, free in disks():
        print(f'room: ./test needs {wanted / GB:.0f} GB on the disk of {place}, and {free / GB:.1f} are left')
        lacks_disk = lacks_disk or free < wanted
    if lacks_disk:
        print(f'room: {TOP}/crates/*/out and {TOP}/build can go, since they are made again, and so can copies of this',
              'repository that are no longer needed, and what `rt ci` keeps beside the kit')
    return int(lacks_memory or lacks_disk)


if __name__ == '__main__':
    sys.exit(main(sys.argv[1:]))
