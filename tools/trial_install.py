"""What `tools/trials installed` tries: the program as it is built is installed into a new folder.

The installed program runs a scenario, also in a root that has it and libc alone, if that may be made here; the manual
page has each command and option of the help, and groff warns of nothing, if it is there; bash completes each of them;
and what the installed compiler makes of a text is run by the installed program.
"""
import os
import re
import shutil
import sys
from pathlib import Path

from cases import TOP
from install import install
from manual import commands_of, help_of
from running import Skipped, called, unlike

TRANSFER = TOP / 'scenarios/transfer.json'
EXAMPLE = TOP / 'examples/04_transfer_with_a_fee.vll'
# The libraries of libc.
LIBC = re.compile(r'(libc|libm|libpthread|libdl|ld-linux.*)\.so')
# The status of unshare and of chroot that may not make a root.
NO_ROOT = (1, 125)
# Prints what the words of a command line are completed by, the last of which may be begun.
COMPLETE = '''source "$1"
COMP_WORDS=("${@:2}") COMP_CWORD=$(($# - 2))
_vll
printf '%s\\n' "${COMPREPLY[@]}"
'''


def completed(path, *words):
    """What bash completes a command line by."""
    ran = called(['bash', '-c', COMPLETE, 'bash', path, *words])
    return set(ran.stdout.decode().split()) | {ran.stderr.decode()} - {''}


def faults_of_program(*command):
    """What is wrong with the program, which these words start."""
    ran = called([*command, 'run'], TRANSFER.read_bytes())
    yield from unlike(' '.join(map(str, command)), ran, 0, TRANSFER.with_suffix('.out').read_bytes())


def make_root(root, program):
    """A root that has the program and the libraries that it is linked with, which have to be libc."""
    libraries = re.findall(r'(/\S+) \(0x', called(['ldd', program]).stdout.decode())
    others = [path for path in libraries if not LIBC.match(Path(path).name)]
    for path in libraries:
        (root / path[1:]).parent.mkdir(parents=True, exist_ok=True)
        shutil.copy(path, root / path[1:])
    shutil.copy(program, root / 'vll')
    return others


def faults_alone(program, room):
    """What is wrong in a root of its own."""
    root = Path(room, 'root')
    root.mkdir()
    others = make_root(root, program)
    if others:
        yield f'the program needs {" and ".join(others)}'
    into = ['chroot', root] if os.geteuid() == 0 else ['unshare', '--map-root-user', 'chroot', root]
    if not shutil.which(into[0]) or called([*into, '/vll', '--version']).returncode in NO_ROOT:
        raise Skipped('no root may be made here')
    yield from faults_of_program(*into, '/vll')


def faults_of_page(path, program):
    text = path.read_text().replace('\\-', '-')
    wanted = {word for word, _ in help_of(program).options()}
    for command in commands_of(program).values():
        wanted |= {command.usage, command.about, *(word for word, _ in command.options() if word != '--help')}
    yield from (f'the manual page lacks {words}' for words in sorted(wanted) if words not in text)
    if shutil.which('groff'):
        yield from unlike('groff', called(['groff', '-man', '-Tutf8', '-ww', '-z', path]), 0, b'')


def faults_of_completion(path, program):
    commands = commands_of(program)
    if not completed(path, 'vll', '') >= {*commands, '--version'}:
        yield f'no word is completed by {completed(path, "vll", "")}'
    for name, command in commands.items():
        options = {word for word, _ in command.options()}
        if completed(path, 'vll', name, '--') != options:
            yield f'{name} is completed by {completed(path, "vll", name, "--")}'
        for word, has_value in command.options():
            if has_value and completed(path, 'vll', name, word, ''):
                yield f'{name} {word} is completed'
        if completed(path, 'vll', name, str(TOP / 'READ')) != {str(TOP / 'README.md')}:
            yield f'{name} is not completed by files'


def faults_of_clients(folder, program):
    compiled = called([sys.executable, '-B', folder / 'vllc.py', EXAMPLE])
    yield from unlike('the compiler', compiled, 0, compiled.stdout)
    ran = called([program, 'run'], compiled.stdout)
    yield from unlike('what it makes', ran, 0, EXAMPLE.with_suffix('.out').read_bytes())


def installed(words, room):
    prefix = Path(room, 'prefix')
    made, page, completion = (prefix / path for path in (
        'bin/vll', 'share/man/man1/vll.1', 'share/bash-completion/completions/vll'))
    yield 'install', (f'there is no {path}' for path in install(words.program, prefix) if not path.exists())
    yield 'installed program', faults_of_program(made)
    yield 'program alone', faults_alone(made, room)
    yield 'manual page', faults_of_page(page, made)
    yield 'completion', faults_of_completion(completion, made)
    yield 'clients', faults_of_clients(prefix / 'share/vll/clients', made)
