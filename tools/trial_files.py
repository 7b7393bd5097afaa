"""What `tools/trials files` tries: commands of `vll` that read the scenario of a file. They print what they print of the
same scenario on standard input, of which they read nothing then, even if it is closed. Standard error explains why a
scenario is refused, and says why a file cannot be read."""
import errno
import os
import socket
import subprocess
import tempfile
from pathlib import Path

from cases import TOP, status_of
from running import SECONDS, Skipped, called, explanation, failure, unlike

COMMANDS = 'run', 'run --workers 1 --cap 2', 'replay', 'explain', 'draw', 'draw --from 2 --count 5', 'trace --workers 1'
TRANSFER = TOP / 'scenarios/transfer.json'
# It has several clients, so a run has several outcomes.
BLOCKED = TOP / 'examples/06_blocked_call.json'
# What is no JSON, has a fault of the shape, and has one of a call.
REFUSED = [b'{"version":1}]', b'{"version":1,"records":[7],"procs":[],"clients":{}}',
           b'{"version":1,"records":[7],"procs":[],"clients":[[{"proc":"p","args":[]}]]}']
# The names of files, in the folder in which the program is called and below it: one is that of a command, and one is
# like the value of an option.
NAMES = 'scenario.json', 'a name with spaces', 'run', '3', 'below/é.json'
# What is printed of a file that cannot be read, and how that is explained.
UNREADABLE = b'vll: scenario: read\n'
EXPLAINED = UNREADABLE + b'at: the file\nwhy: it cannot be read\n'


def with_input(command, folder):
    """How a command ended that is called in this folder, and how many bytes of its standard input it has read."""
    with tempfile.TemporaryFile() as file:
        file.write(TRANSFER.read_bytes())
        file.seek(0)
        ran = subprocess.run(command, cwd=folder, stdin=file, capture_output=True, timeout=SECONDS, check=False)
        return ran, os.lseek(file.fileno(), 0, os.SEEK_CUR)


def of_input(program, command, text):
    """How a command ends on these bytes of standard input, which has to print something of them, and to explain on
    standard error why it refuses them."""
    ran = called([program, *command.split()], text)
    if not ran.stdout or ran.returncode != status_of(ran.stdout):
        raise ValueError(f'{command}: status {ran.returncode}; it printed {ran.stdout[:100]!r}')
    if ran.stderr != (explanation(program, text) if ran.returncode == 2 and command != 'explain' else b''):
        raise ValueError(f'{command}: on standard error came {ran.stderr[:200]!r}')
    return ran


def of_files(program, command, room):
    """Each file gives what its bytes give on standard input."""
    folder = Path(tempfile.mkdtemp(dir=room))
    (folder / 'below').mkdir()
    texts = [TRANSFER.read_bytes(), *([] if command.startswith('run') else [BLOCKED.read_bytes()]), *REFUSED]
    for name, text in zip(NAMES, texts):
        (folder / name).write_bytes(text)
    first, *options = command.split()
    words = [([first, *options, file], folder / file) for file in NAMES[:len(texts)]]
    # in another folder; before the options; and behind two dashes
    words += [(given, TRANSFER) for given in (
        [first, *options, TRANSFER], [first, TRANSFER, *options], [first, *options, '--', TRANSFER])]
    for given, file in words:
        wanted = of_input(program, command, file.read_bytes())
        ran, count = with_input([program, *given], folder)
        yield from unlike(str(given), ran, wanted.returncode, wanted.stdout, wanted.stderr)
        if count:
            yield f'{given}: {count} bytes of standard input were read'


def of_no_file(program, command, folder, path, number):
    """What cannot be read is told as standard input that cannot be read, and the system's reason, with this number, on
    standard error."""
    ran, count = with_input([program, *command.split(), path], folder)
    said = failure(path, number)
    if command == 'explain':
        printed = EXPLAINED
    elif command == 'serve':
        printed, said = b'', EXPLAINED + said
    else:
        printed, said = UNREADABLE, EXPLAINED + said
    yield from unlike(f'{command} {str(path)[:80]!r}', ran, 2, printed, said)
    if count:
        yield f'{command} {path}: {count} bytes of standard input were read'


def of_no_files(program, command, room):
    """A file that is not there, a folder, a path through a file, a name that is too long or empty, and a socket."""
    folder = Path(tempfile.mkdtemp(dir=room))
    with socket.socket(socket.AF_UNIX) as bound:
        bound.bind(str(folder / 'socket'))
        for path, number in ((folder / 'nothing', errno.ENOENT), ('é 3', errno.ENOENT), (folder, errno.EISDIR),
                             (TRANSFER / 'x', errno.ENOTDIR), ('x' * 5000, errno.ENAMETOOLONG), ('', errno.ENOENT),
                             (folder / 'socket', errno.ENXIO)):
            yield from of_no_file(program, command, folder, path, number)


def of_a_file_without_permission(program, room):
    if os.geteuid() == 0:
        raise Skipped('root may read each file')
    folder = Path(tempfile.mkdtemp(dir=room))
    (folder / 'private').write_bytes(TRANSFER.read_bytes())
    (folder / 'private').chmod(0)
    for command in *COMMANDS, 'serve':
        yield from of_no_file(program, command, folder, 'private', errno.EACCES)


def of_streams(program, command):
    """Standard input may be closed, and a pipe or standard input itself may be named in place of a file."""
    wanted = of_input(program, command, TRANSFER.read_bytes())
    for behind in '"$TRANSFER" <&-', '<(cat "$TRANSFER") </dev/null', '/dev/stdin <"$TRANSFER"':
        ran = called(['bash', '-c', f'exec "$@" {behind}', 'bash', program, *command.split()],
                     env={**os.environ, 'TRANSFER': str(TRANSFER)})
        yield from unlike(f'{command} {behind}', ran, wanted.returncode, wanted.stdout)


def files(words, room):
    for command in COMMANDS:
        yield f'{command} of files', of_files(words.program, command, room)
        yield f'{command} of no files', of_no_files(words.program, command, room)
        yield f'{command} of streams', of_streams(words.program, command)
    yield 'serve of no files', of_no_files(words.program, 'serve', room)
    yield 'a file without permission', of_a_file_without_permission(words.program, room)
