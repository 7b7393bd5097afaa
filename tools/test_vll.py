#!/usr/bin/env python3
"""Tests the script ./vll: when it builds the program, what it answers before that, and that `./vll --unproved` prints
what the program prints and is never chosen silently.

    python3 tools/test_vll.py             with a stand-in for rt; some seconds
    python3 tools/test_vll.py --with-rt   with rt itself on some scenarios; some minutes
"""
import os
import shutil
import subprocess
import sys
import tempfile
import unittest
from pathlib import Path

TOP = Path(__file__).resolve().parent.parent
TRANSFER = TOP / 'scenarios/transfer.json'
OUTCOME = b'call 0 client 0 committed 70\nrecord 0 value 70 pair 0\n'

# In place of rt: it notes how it was called, and prints as `rt try`, `rt run` and `rt lib` do.
RT = '''#!/usr/bin/env bash
[[ $1 != version ]] || { echo 'kit 1'; exit; }
if [[ $1 == lib ]]; then
  basename "$PWD" >>"$ROOM/libraries"
  printf 'so far: 3 of 9 functions checked; the verdict comes last\\n'
  [[ ! -e $ROOM/unproved ]]; exit
fi
printf '%s\\n' "$PWD" "$@" >"$ROOM/words"
cat >"$ROOM/input"
[[ -f /dev/stdin ]] || printf 'no file\\n' >"$ROOM/no_file"
cat "$ROOM/printed"
cat "$ROOM/said" >&2
[[ ! -e $ROOM/made ]] || { mkdir -p out && cp -- "$ROOM/made" out/vll; }
exit "$(<"$ROOM/status")"
'''
LINES = ['vll_deep:', 'vll_part: vll_deep kit', 'vll: vll_part kit', 'vll_other: vll_part']


class WithStandIn(unittest.TestCase):
    """A copy of ./vll over a folder of its own, with a stand-in for rt on the PATH."""

    def setUp(self):
        self.room = Path(tempfile.mkdtemp())
        self.addCleanup(shutil.rmtree, self.room)
        self.program = self.room / 'crates/vll/out/vll'
        for crate in 'vll', 'vll_part', 'vll_deep', 'vll_other':
            self.write(f'crates/{crate}/src/lib.rt', '')
        self.list_crates(LINES)
        self.write('HANDLES', '')
        shutil.copy(TOP / 'vll', self.room / 'vll')
        self.write('bin/rt', RT, 0o755)
        self.answer(OUTCOME, 0)

    def write(self, name, text, mode=0o644):
        path = self.room / name
        path.parent.mkdir(parents=True, exist_ok=True)
        path.write_text(text)
        path.chmod(mode)

    def list_crates(self, lines):
        self.write('crates.txt', '\n'.join(['# NAME: the libraries that it uses', *lines, '']))

    def answer(self, printed, status, last=None, told=''):
        """What the stand-in prints, the status of the program that it ran, and what this said on standard error."""
        ended = f'run=ended status={status} runners=1 races=unchecked proved=no\n'
        (self.room / 'printed').write_bytes(printed)
        self.write('said', f'{told}checked: something\n' + (ended if last is None else last))
        self.write('status', f'{status}\n')

    def vll(self, *words, **given):
        env = {**os.environ, 'PATH': f'{self.room / "bin"}:{os.environ["PATH"]}', 'ROOM': str(self.room)}
        given = given or {'input': b''}
        return subprocess.run([self.room / 'vll', *words], capture_output=True, env=env, check=False, **given)

    def check(self, words, status, printed, *said):
        """Runs it, and looks at its status, its output and parts of what it says; answers all that it says."""
        ran = self.vll(*words)
        self.assertEqual((ran.returncode, ran.stdout), (status, printed), words)
        for part in said:
            self.assertIn(part, ran.stderr, words)
        return ran.stderr

    def is_built_for(self, *words):
        """Whether these words have the program built; the stand-in builds one that prints its words."""
        (self.room / 'words').unlink(missing_ok=True)
        self.write('made', '#!/usr/bin/env bash\nprintf "%s\\n" "$*"\n', 0o755)
        self.assertEqual(self.vll(*words).stdout.decode().rstrip('\n'), ' '.join(map(os.fsdecode, words)))
        self.assertTrue(self.program.exists())
        return bool(self.called())

    def called(self):
        """The folder and the words with which rt was called last to run something; nothing if it was not."""
        words = self.room / 'words'
        return words.read_text().splitlines() if words.exists() else []

    def test_words_and_input_reach_the_program(self):
        """The word --unproved counts in any place, and the input comes from a file."""
        given = TRANSFER.read_bytes()
        for words in '--unproved run --workers 3', 'run --unproved --workers 3', 'run --workers 3 --unproved', \
                '--unproved replay', '--unproved explain':
            self.vll(*words.split(), input=given)
            wanted = ['try', '--', *words.replace('--unproved', '').split()]
            self.assertEqual(self.called(), [str(self.room / 'crates/vll'), *wanted])
            self.assertEqual((self.room / 'input').read_bytes(), given)
        self.assertFalse((self.room / 'no_file').exists())

    def test_files_are_found_from_where_it_is_called(self):
        """The program without a proof runs in another folder, and the word behind an option is no file. Standard input
        is not read for a file, but for a service."""
        folder = Path(tempfile.mkdtemp(dir=self.room))
        for name in 'bank.json', '3':
            shutil.copy(TRANSFER, folder / name)
        for words, is_read in ('run --workers 3 bank.json', False), ('run bank.json --workers 3', False), \
                ('draw --from=3 bank.json', False), ('replay -- bank.json', False), ('run nothing.json', False), \
                ('serve --cap 3 bank.json', True), ('run --workers 3', True):
            self.vll('--unproved', *words.split(), input=b'its input', cwd=folder)
            wanted = words.replace('bank', str(folder / 'bank')).replace('nothing', str(folder / 'nothing')).split()
            self.assertEqual(self.called()[1:], ['try', '--', *wanted])
            self.assertEqual((self.room / 'input').read_bytes(), b'its input' if is_read else b'', words)

    def test_outcome_and_status_are_the_programs(self):
        """Each run says that it is unproved, and nothing of what rt says."""
        for printed, status in (OUTCOME, 0), (b'', 0), (b'no end of the line', 0), (b'\0\xff\n\n', 0), \
                (b'vll: scenario: json\n', 1), (b'vll: scenario: json\n', 2):
            self.answer(printed, status)
            for word in 'run', 'replay', '--help':
                said = self.check(['--unproved', word], status, printed, b'UNPROVED')
                self.assertNotIn(b'checked: something', said)

    def test_what_the_program_says_is_shown_alone(self):
        """All that it says on standard error, behind the notice that the run is unproved."""
        explained = 'vll: nothing.json: No such file\nvll: scenario: read\nat: the file\nwhy: it cannot be read\n'
        for told, wanted in (explained, explained), ('', ''), ('error: no\n\nUsage: program run\n',
                                                             'error: no\n\nUsage: vll run\n'):
            self.answer(b'vll: scenario: read\n', 2, told=told)
            said = self.check(['--unproved', 'run'], 2, b'vll: scenario: read\n')
            self.assertEqual(said.decode().partition('\n')[2], wanted)

    def test_help_names_the_program(self):
        usage = b'Runs it\n\nUsage: program run [OPTIONS]\n'
        self.answer(usage, 0)
        self.check(['--unproved', 'run', '--help'], 0, usage.replace(b'program', b'vll'))
        self.check(['--unproved', 'run'], 0, usage)

    def test_no_outcome_is_status_3(self):
        """A line of the program is not taken for the last one either."""
        for last in 'run=no-answer proved=no\n', 'run=none proved=no\n', 'error: expected `;`\n', '', \
                'run=ended status=0 proved=no\nrun=no-answer proved=no\n':
            self.answer(b'half of an outcome\n', 4, last)
            self.check(['--unproved', 'run'], 3, b'', b'checked: something')

    def test_input_is_left_where_the_program_reads_none(self):
        for words in '--help', 'run --help', 'replay -h', '--version':
            self.vll('--unproved', *words.split(), input=b'left as it is')
            self.assertEqual((self.room / 'input').read_bytes(), b'')

    def test_input_that_cannot_be_read_is_status_3(self):
        folder = os.open(self.room, os.O_RDONLY)
        self.addCleanup(os.close, folder)
        ran = self.vll('--unproved', 'run', stdin=folder)
        self.assertEqual((ran.returncode, ran.stdout), (3, b''))

    def test_it_is_not_chosen_silently(self):
        """The program that is built counts as proved, and is found through a link from another folder."""
        self.write('crates/vll/out/vll', '#!/usr/bin/env bash\nprintf proved\n', 0o755)
        self.assertEqual(self.check(['run'], 0, b'proved'), b'')
        self.assertEqual(self.called(), [])
        with tempfile.TemporaryDirectory() as room:
            link = Path(room, 'link')
            link.symlink_to(self.room / 'vll')
            ran = subprocess.run([link, 'run'], cwd='/', stdin=subprocess.DEVNULL, stdout=subprocess.PIPE, check=False)
        self.assertEqual(ran.stdout, b'proved')
        self.check(['run', '--unproved'], 0, OUTCOME, b'UNPROVED')

    def test_help_is_there_before_the_program(self):
        for words in '--help', '-h', 'help', 'help run', 'run --help', 'replay -h', 'help explain', 'help draw', \
                'run --help --workers 65':
            ran = self.vll(*words.split())
            self.assertEqual((ran.returncode, ran.stderr), (0, b''))
            for part in b'./vll --unproved', b'run [--workers N] [--cap N] [--bits N] [FILE]', b'replay', b'explain':
                self.assertIn(part, ran.stdout)
            self.assertNotIn(b'set -euo', ran.stdout)
        self.assertEqual(self.called(), [])

    def test_version_comes_with_the_commit(self):
        """Before the program is there, and with it; without a repository only the version comes."""
        self.write('crates/vll_command/src/commands.rt', 'const VERSION: &str = "1.2.3";\n')
        self.check(['--version'], 0, b'vll 1.2.3\n')
        for words in 'init -q', 'add vll', '-c user.name=a -c user.email=b commit -qm one':
            subprocess.run(['git', '-C', self.room, *words.split()], check=True)
        found = subprocess.run(['git', '-C', self.room, 'rev-parse', 'HEAD'], stdout=subprocess.PIPE, check=True)
        self.check(['--version'], 0, b'vll 1.2.3\ncommit ' + found.stdout.rstrip(b'\n') + b', with changes\n')
        self.write('.git/info/exclude', '*\n')
        self.check(['-V'], 0, b'vll 1.2.3\ncommit ' + found.stdout)
        self.write('crates/vll/out/vll', '#!/usr/bin/env bash\necho vll 1.2.4\n', 0o755)
        self.check(['--version'], 0, b'vll 1.2.4\ncommit ' + found.stdout)
        inner = self.room / 'inner'
        inner.mkdir()
        shutil.copy(self.room / 'vll', inner)
        shutil.copytree(self.room / 'crates', inner / 'crates')
        shutil.copy(self.room / 'crates.txt', inner)
        ran = subprocess.run([inner / 'vll', '--version'], stdout=subprocess.PIPE, check=True)
        self.assertEqual(ran.stdout, b'vll 1.2.3\n')

    def test_what_is_no_command_is_refused_before_the_program_is_there(self):
        for words in [], ['rnu'], ['scenario.json'], ['--', 'run'], ['--unproved', 'rnu'], [b'\xff']:
            self.check(words, 2, b'vll: command line\n', b'--help')
        self.assertEqual(self.called(), [])

    def test_words_of_use_have_the_program_built(self):
        """The program tests its options itself."""
        for words in 'run', 'replay', 'explain', 'run --workers 3 --cap=4 --bits 5', 'run --workers 65', \
                'draw -- --count=0', 'run scenario.json', 'explain below/scenario.json':
            self.assertTrue(self.is_built_for(*words.split()))
            self.assertEqual(self.called()[1:], ['run', '--', '--help'])
            self.assertFalse(self.is_built_for(*words.split()))
            shutil.rmtree(self.program.parent)

    def test_each_library_is_proved_after_those_below_it(self):
        """It tells how far the proofs are."""
        said = self.vll('run').stderr.decode()
        self.assertEqual((self.room / 'libraries').read_text().split(), ['vll_deep', 'vll_part'])
        for part in 'this proves 3 crates', 'proving vll_deep\n', 'vll_deep: 3 of 9 functions checked\n', \
                'vll_deep is proved: 1 of 3 crates, after 0 minutes', 'proving vll\n', \
                'vll is proved: 3 of 3 crates, after 0 minutes':
            self.assertIn(part, said)

    def test_a_library_that_is_not_proved_is_status_3(self):
        self.write('unproved', '')
        self.check(['run'], 3, b'', b'so far: 3 of 9', b'vll_deep could not be built')
        self.assertEqual(((self.room / 'libraries').read_text(), self.called()), ('vll_deep\n', []))

    def test_the_program_is_built_anew_for_what_it_is_made_from_alone(self):
        self.assertTrue(self.is_built_for('run'))
        for file, counts in (('crates/vll_deep/src/lib.rt', True), ('crates/vll_other/src/lib.rt', False),
                             ('HANDLES', True), ('crates/vll_own/src/main.rt', False), ('README.md', False),
                             ('crates/vll/src/main.rt', True), ('crates/vll_part/must-fail/x.edit', False)):
            self.write(file, '')
            self.assertEqual(self.is_built_for('run'), counts, file)
            self.assertFalse(self.is_built_for('run'), file)
        (self.room / 'crates/vll_deep/src/lib.rt').unlink()
        self.assertTrue(self.is_built_for('run'))

    def test_a_line_for_a_crate_counts_if_the_program_is_made_from_it(self):
        self.assertTrue(self.is_built_for('run'))
        for changed, counts in ([*LINES, 'vll_own: vll_deep'], False), (LINES[:3], False), \
                ([*LINES[:2], 'vll: vll_part vll_other kit', LINES[3]], True), (['vll_deep: kit', *LINES[1:]], True):
            self.list_crates(changed)
            self.assertEqual(self.is_built_for('run'), counts, changed)
            self.assertFalse(self.is_built_for('run'), changed)


@unittest.skipUnless('--with-rt' in sys.argv, 'not asked for')
class WithRt(unittest.TestCase):

    def test_repository_itself(self):
        """Its own ./vll, and rt: each run compiles all sources."""
        for words, given, printed, status in [
                ('run --workers 3', TRANSFER.read_bytes(), TRANSFER.with_suffix('.out').read_bytes(), 0),
                ('replay', b'{', b'vll: scenario: json\n', 2), ('run --workers 0', b'', b'vll: command line\n', 2)]:
            command = [TOP / 'vll', '--unproved', *words.split()]
            ran = subprocess.run(command, input=given, capture_output=True, check=False)
            self.assertEqual((ran.stdout, ran.returncode), (printed, status), ran.stderr.decode())


if __name__ == '__main__':
    unittest.main(argv=[sys.argv[0], 'WithRt' if '--with-rt' in sys.argv else 'WithStandIn'])
