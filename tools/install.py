#!/usr/bin/env python3
"""Installs a program of vll below a folder, with its manual page, its completion in bash and the clients.

    python3 tools/install.py PROGRAM FOLDER

`./vll --install FOLDER` calls it with the proved program. A line is printed for each thing that is installed. The
status is 1 if something could not be.
"""
import os
import shutil
import subprocess
import sys
from pathlib import Path

from cases import TOP
from manual import completion, page

CLIENTS = TOP / 'clients'


def write(path, content, mode=0o644):
    """Puts a file there at once, also in place of a program that runs."""
    path.parent.mkdir(parents=True, exist_ok=True)
    half = path.with_name(f'.{path.name}.half')
    half.write_bytes(content)
    half.chmod(mode)
    os.replace(half, path)
    return path


def copy_clients(folder):
    """Puts the clients there, without their tests and without what an earlier version had."""
    shutil.rmtree(folder, ignore_errors=True)
    shutil.copytree(CLIENTS, folder, ignore=shutil.ignore_patterns('__pycache__', 'test*'))
    for path in [folder, *folder.rglob('*')]:
        is_run = path.is_dir() or path.stat().st_mode & 0o100
        path.chmod(0o755 if is_run else 0o644)
    return folder


def install(program, folder):
    """Installs the program, and what stands beside it; each path that is made."""
    yield write(folder / 'bin/vll', Path(program).read_bytes(), 0o755)
    yield write(folder / 'share/man/man1/vll.1', page(program).encode())
    yield write(folder / 'share/bash-completion/completions/vll', completion(program).encode())
    yield copy_clients(folder / 'share/vll/clients')


def main():
    if len(sys.argv) != 3:
        print('usage: install.py PROGRAM FOLDER', file=sys.stderr)
        return 2
    try:
        for path in install(sys.argv[1], Path(sys.argv[2])):
            print(path)
    except (OSError, ValueError, subprocess.CalledProcessError) as why:
        print(f'vll: it could not be installed: {why}', file=sys.stderr)
        return 1
    return 0


if __name__ == '__main__':
    sys.exit(main())
