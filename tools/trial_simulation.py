#!/usr/bin/env python3
"""Plants bugs in the engine, and sees that the seeds of vll_simulation find each of them; and bugs by which a trace
misses something, which traced runs find.

    python3 tools/trial_simulation.py [BUG..]

No bug is proved: each is compiled by `rt try`, in a copy of the crates. It takes a minute or two for a bug.
"""
import re
import shutil
import subprocess
import sys
import tempfile
from pathlib import Path

from generate import SIZES, scenario_of, text_of

TOP = Path(__file__).resolve().parent.parent
SEEDS = 'const SEEDS: u64 = 5_000;'
# As many as the unproved build makes in a minute; a bug that needs more would be told.
FEW_SEEDS = 'const SEEDS: u64 = 150;'
LOCKED, QUEUE = 'vll_queue/src/locked', 'vll_core/src/queue'
# Of each bug its file, what stands there once, and what stands there in its place; and likewise for more places.
BUGS = {
    'the scan of another number of places':
        ('vll_engine/src/opening.rt', 'Queue::open(alloc, config, hash)?',
         'Queue::open(alloc, Config { bits: 1, ..config }, hash)?'),
    'the front passed over while calls run':
        (f'{LOCKED}/next.rt', 'let ticket = self.queue.front()?;',
         'if self.queue.running() == 2 { return None; } let ticket = self.queue.front()?;'),
    'busy one too early':
        (f'{LOCKED}/admit.rt', 'if self.queue.is_busy() {',
         'if self.queue.is_busy() || self.queue.waiting() == 2 {'),
    'scans put off for ever':
        ('vll_queue/src/patience.rt', '|| self.owed < self.least_owed', ''),
    'the reply of the ticket before':
        (f'{LOCKED}/reply.rt', '.get(ticket.0 as usize)?.reply',
         '.get((ticket.0 as usize).saturating_sub(1))?.reply'),
    'a line handed out twice':
        (f'{LOCKED}/lines.rt', '.get(from.0 as usize..)', '.get((from.0 as usize).saturating_sub(1)..)'),
    'a line of a call that has not finished':
        (f'{LOCKED}/lines.rt', 'line.reply.is_none() || lines.len()', 'lines.len()'),
    'a waiting call dropped by the window':
        (f'{QUEUE}.rt', 'self.window.push(ticket.0);',
         'if free || ticket.0 % 7 != 3 { self.window.push(ticket.0); }'),
    'the value of another record found':
        ('vll_queue/src/finding.rt', 'words.find(seat, source)', 'words.find(seat, RecordId(0))'),
    'a find before the client\'s own last call':
        ('vll_queue/src/session.rt', '    pub(crate) seat: Option<SessionSeat>,',
         '    pub(crate) seat: Option<SessionSeat>, pub(crate) early: u64,',
         'vll_queue/src/session.rt', 'seat: Some(seat),', 'seat: Some(seat), early: 0,',
         f'{LOCKED}/close.rt', 'let Session { client: _, seat } = session;',
         'let Session { client: _, seat, early: _ } = session;',
         'vll_queue/src/finding.rt', 'let value = words.find(seat, source);',
         'let now = words.find(seat, source); let value = session.early; session.early = now;'),
    'a release left out':
        ('vll_queue/src/execution.rt', 'words.release(seat, claim);',
         'if claims.len() < 2 { words.release(seat, claim); }'),
    'a release made twice':
        ('vll_queue/src/execution.rt', 'words.release(seat, claim);',
         'words.release(seat, claim); if claims.len() == 2 { words.release(seat, claim); }'),
    'a call free though a claim is denied':
        (f'{LOCKED}/admit.rt', 'free = free && granted(mode, old);', 'free = granted(mode, old);'),
    'the store of an aborted call':
        ('vll_queue/src/execution.rt', 'if let Reply::Committed(_) = reply {',
         'if let Reply::Aborted(_) = reply { for claim in call.claims.iter() { words.store(seat, claim.id, 0); } }'
         ' else {'),
    'a look that is always free':
        ('vll_engine/src/engine.rt', 'vll_queue::look::<N>(&self.words, call)', 'true'),
    'running calls counted as waiting ones too':
        (f'{LOCKED}/close.rt', 'let waiting = self.queue.waiting();',
         'let waiting = self.queue.waiting() + self.queue.running();'),
}
# As above; traced runs find these.
TRACED = {
    'a front left out of a trace':
        ('vll_trace/src/ordering.rt', 'self.take(&event)?;', 'if !matches!(by, Choice::Front) { self.take(&event)?; }'),
    'what happens under a second hold not recorded':
        ('vll_workers/src/work/executing.rt', 'self.gate.finished(ticket);', ''),
}
TRACES = 30


def plant(room, bug):
    """Puts the bug into the copy."""
    for path, old, new in zip(bug[::3], bug[1::3], bug[2::3]):
        file = room / 'crates' / path
        text = file.read_text()
        if text.count(old) != 1:
            raise SystemExit(f'{path} has not once: {old}')
        file.write_text(text.replace(old, new))


def tried(room):
    """What the seeds say."""
    seeds = room / 'crates/vll_simulation/src/seeds.rt'
    seeds.write_text(seeds.read_text().replace(SEEDS, FEW_SEEDS))
    return said_by(room / 'crates/vll_simulation', '--test')


def traced(room):
    """What runs that are traced say, of random scenarios."""
    cases = room / 'cases'
    cases.mkdir()
    for seed in range(TRACES):
        scenario, _ = scenario_of('trace', seed, SIZES['trace'])
        (cases / f'{seed}.json').write_text(text_of(scenario, seed))
    return said_by(room / 'crates/vll', '--cases', cases, '--', 'trace', '--workers', '4', '--cap', '65536')


def said_by(crate, *words):
    """What `rt try` prints of a crate."""
    run = subprocess.run(['rt', 'try', '--seconds', '300', *words], cwd=crate, text=True,
                         stdout=subprocess.PIPE, stderr=subprocess.STDOUT)
    return run.stdout


def told(said):
    """The difference that was found, if any."""
    found = re.search(r'seed \d+, step \d+: .*|a (call|pass) is left.*|calls are left.*|'
                      r'the run is not one of the machine.*', said)
    return found and found.group()


def main():
    wanted = sys.argv[1:] or [*BUGS, *TRACED]
    missed = []
    for name in wanted:
        with tempfile.TemporaryDirectory() as folder:
            room = Path(folder)
            shutil.copytree(TOP / 'crates', room / 'crates', ignore=shutil.ignore_patterns('out'))
            for file in 'crates.txt', 'HANDLES':
                shutil.copy(TOP / file, room)
            plant(room, BUGS.get(name) or TRACED[name])
            said = tried(room) if name in BUGS else traced(room)
        difference = told(said)
        print(f'{name}: {difference or "NOT FOUND: " + said[-600:]}', flush=True)
        missed += [] if difference else [name]
    print(f'{len(wanted) - len(missed)} of {len(wanted)} bugs found')
    return 1 if missed else 0


if __name__ == '__main__':
    sys.exit(main())
