"""Runs a program for the trials, and says what of a run is not as it has to be."""
import os
import subprocess

SECONDS = 300


class Skipped(Exception):
    """What cannot be tried on this machine; the message says why."""


def called(words, text=b'', **how):
    """How a command that reads this input ended, and what it printed."""
    streams = {'stdout': subprocess.PIPE, 'stderr': subprocess.PIPE, **how}
    return subprocess.run(words, input=text, timeout=SECONDS, check=False, **streams)


def failure(what, number):
    """What `vll` says on standard error of a file or a stream that fails, by the number of the system's reason."""
    return f'vll: {what}: {os.strerror(number)} (os error {number})\n'.encode()


def explanation(program, text, *files):
    """What `vll explain` prints of a scenario that is refused: the other commands say it on standard error."""
    ran = called([program, 'explain', *files], text)
    if ran.returncode != 2 or not ran.stdout.startswith(b'vll: scenario: '):
        raise ValueError(f'explain: status {ran.returncode}; it printed {ran.stdout[:100]!r}')
    return ran.stdout


def unlike(what, ran, status, printed, said=b''):
    """Why a run is not as it has to be: its status, what it prints, and what comes on standard error."""
    if (ran.returncode, ran.stdout, ran.stderr) != (status, printed, said):
        pairs = enumerate(zip(ran.stdout, printed))
        at = next((at for at, (one, other) in pairs if one != other), min(len(ran.stdout), len(printed)))
        yield (f'{what}: status {ran.returncode}, and not {status}; {ran.stderr[:200]!r} on standard error; from byte {at}'
               f' on it printed {ran.stdout[at:at + 100]!r}, and not {printed[at:at + 100]!r}')
