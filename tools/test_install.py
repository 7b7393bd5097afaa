#!/usr/bin/env python3
"""Tests `./vll --install`, tools/release, and what both make of the help, with stand-ins for rt and for the program.

`tools/trials installed` tries the program itself.
"""
import hashlib
import os
import shutil
import subprocess
import sys
import tarfile
import tempfile
import time
import unittest
from pathlib import Path

from cases import TOP
from manual import completion, page, read_help
from trial_install import completed

# It answers as the program does, with fewer options.
PROGRAM = r'''#!/usr/bin/env bash
case "$*" in
  --version) printf 'vll 1.2.3\n' ;;
  --help) printf '%s\n' 'Runs the calls' '' 'Usage: vll <COMMAND>' '' 'Commands:' '  run    Runs the scenario' \
    '  serve  Serves calls' '  help   Print this message' '' 'Options:' '  -h, --help     Print help' \
    '  -V, --version  Print version' '' 'Examples:' '  vll run < a.json' ;;
  'run --help') printf '%s\n' 'Runs the scenario' '' 'Usage: vll run [OPTIONS]' '' 'Options:' \
    '      --workers <N>  Threads, 1 to 64 [default: 4]' '  -h, --help         Print help' '' 'Examples:' \
    '  vll run < a.json' '' '.A line with a point, and a \ in it.' 'It goes on.' ;;
  'serve --help') printf '%s\n' 'Serves calls' '' 'Usage: vll serve [OPTIONS] <FILE>' '' 'Arguments:' \
    '  <FILE>  The scenario' '' 'Options:' '      --cap <N>  Calls that may wait' '  -h, --help     Print help' ;;
  wait) sleep 60 ;;
  *) printf 'run\n' ;;
esac
'''
RT = '''#!/usr/bin/env bash
case $1 in
  version) printf 'a kit 7\\n' ;;
  run) mkdir -p out && cp "$ROOM/program" out/vll ;;
esac
'''
TOOLS = ['cases.py', 'install.py', 'manual.py', 'release']
PATHS = ['bin/vll', 'share/bash-completion/completions/vll', 'share/man/man1/vll.1', 'share/vll/clients/vllc.py']


class Repository(unittest.TestCase):
    """A repository with ./vll, the tools, the clients, and a program of two crates."""

    def setUp(self):
        self.room = Path(tempfile.mkdtemp())
        self.addCleanup(shutil.rmtree, self.room)
        self.top = self.room / 'repository'
        self.prefix = self.room / 'a prefix'
        self.program = self.top / 'crates/vll/out/vll'
        self.write(self.room / 'program', PROGRAM, 0o755)
        self.write(self.room / 'bin/rt', RT, 0o755)
        for name in 'crates/vll/src/main.rt', 'crates/vll_part/src/lib.rt', 'HANDLES', 'CHANGELOG.md':
            self.write(self.top / name, name)
        self.write(self.top / '.gitignore', (TOP / '.gitignore').read_text())
        self.write(self.top / 'crates.txt', '# crates\nvll_part: kit\nvll: vll_part # the program\nvll_other: vll\n')
        (self.top / 'tools').mkdir()
        for name in ['vll', *(f'tools/{name}' for name in TOOLS)]:
            shutil.copy(TOP / name, self.top / name)
        shutil.copytree(TOP / 'clients', self.top / 'clients', ignore=shutil.ignore_patterns('__pycache__'))
        self.write(self.top / 'clients/test_something.py', '')

    @staticmethod
    def write(path, text, mode=0o644):
        path.parent.mkdir(parents=True, exist_ok=True)
        path.write_text(text)
        path.chmod(mode)

    def run_it(self, *words):
        env = {**os.environ, 'PATH': f'{self.room / "bin"}:{os.environ["PATH"]}', 'ROOM': str(self.room)}
        ran = subprocess.run(words, cwd=self.top, env=env, stdin=subprocess.DEVNULL, capture_output=True, check=False)
        return ran.returncode, ran.stdout.decode(), ran.stderr.decode()

    def install(self):
        status, printed, said = self.run_it('./vll', '--install', self.prefix)
        self.assertEqual(status, 0, said)
        return printed

    def git(self, *words):
        status, printed, said = self.run_it('git', '-c', 'user.name=a', '-c', 'user.email=b', *words)
        self.assertEqual(status, 0, said)
        return printed.strip()

    def commit(self):
        self.git('init', '-q')
        self.git('add', '-A')
        self.git('commit', '-q', '-m', 'all')

    def release(self, folder):
        """The archive that is made, or why none is."""
        status, printed, said = self.run_it('tools/release', self.room / folder)
        return said if status else Path(printed.strip())

    # ./vll --install

    def test_installs_what_it_builds_first(self):
        printed = self.install()
        for path in PATHS:
            self.assertTrue((self.prefix / path).is_file(), path)
            self.assertEqual((self.prefix / path).stat().st_mode & 0o777, 0o755 if path.endswith(('bin/vll', '.py'))
                             else 0o644, path)
        self.assertEqual(printed.splitlines(), [str(self.prefix / path) for path in (
            'bin/vll', 'share/man/man1/vll.1', 'share/bash-completion/completions/vll', 'share/vll/clients')])
        self.assertEqual(self.run_it(self.prefix / 'bin/vll', 'run'), (0, 'run\n', ''))
        status, text, said = self.run_it(sys.executable, self.prefix / PATHS[3], TOP / 'examples/01_transfer.vll')
        self.assertEqual((status, said), (0, ''))
        self.assertIn('"transfer"', text)

    def test_replaces_what_was_installed(self):
        """Also a program that runs; nothing of an earlier version is left among the clients, and no test."""
        self.install()
        self.write(self.prefix / 'share/vll/clients/of_old.py', '')
        with subprocess.Popen([self.prefix / 'bin/vll', 'wait']) as running:
            self.install()
            running.kill()
        found = {path.name for path in (self.prefix / 'share/vll/clients').rglob('*')}
        self.assertFalse(found & {'of_old.py', 'test_something.py', '__pycache__'})
        self.assertEqual([path.name for path in (self.prefix / 'bin').iterdir()], ['vll'])

    def test_takes_one_folder_and_proved_programs_alone(self):
        for words in [], [''], [self.prefix, 'more'], [self.prefix, '--unproved']:
            status, printed, _ = self.run_it('./vll', '--install', *words)
            self.assertEqual((status, printed), (2, 'vll: command line\n'), words)
        self.assertFalse(self.prefix.exists() or self.program.exists())

    def test_what_cannot_be_written_is_told(self):
        self.prefix.write_text('a file')
        status, _, said = self.run_it('./vll', '--install', self.prefix)
        self.assertEqual(status, 1)
        self.assertIn('it could not be installed', said)

    # What is made of the help

    def test_manual_page(self):
        """Each command with its options; a line that roff would take for its own is none."""
        text = page(self.room / 'program')
        for part in '.TH VLL 1 "" "vll 1.2.3" "User Commands"', 'vll \\- runs the calls', \
                '.SS \\fBvll run [OPTIONS]\\fR', '\\fB\\-\\-workers <N>\\fR\nThreads, 1 to 64 [default: 4]', \
                '\\fB<FILE>\\fR\nThe scenario', '.nf\nvll run < a.json\n.fi', \
                '\\&.A line with a point, and a \\e in it.':
            self.assertIn(part, text)
        self.assertNotIn('\\-h', text.partition('.SH OPTIONS')[0])
        self.assertRaises(ValueError, read_help, 'vll: command line\n')

    def test_completion(self):
        path = self.room / 'completion'
        path.write_text(completion(self.room / 'program'))
        (self.room / 'file').write_text('')
        for words, found in (([''], 'run serve help --help --version'), (['s'], 'serve'), (['none', ''], ''),
                             (['run', ''], '--workers --help'), (['run', '--w'], '--workers'),
                             (['run', '--workers', ''], ''), (['serve', '--'], '--cap --help'),
                             (['serve', str(self.room / 'fi')], str(self.room / 'file')), (['help', 'r'], 'run')):
            self.assertEqual(completed(path, 'vll', *words), set(found.split()), words)

    # tools/release

    @unittest.skipUnless(shutil.which('git'), 'there is no git')
    def test_release_has_all_with_checksums(self):
        self.commit()
        self.install()
        archive = self.release('one')
        self.assertEqual(archive, self.room / 'one/vll-1.2.3-linux-x86_64.tar.gz')
        subprocess.run(['sha256sum', '--quiet', '-c', 'SHA256SUMS'], cwd=archive.parent, check=True)
        with tarfile.open(archive) as packed:
            names = packed.getnames()
            packed.extractall(self.room)
        self.assertEqual(names, sorted(names, key=lambda name: name.split('/')))
        folder = self.room / 'vll-1.2.3-linux-x86_64'
        sums = (folder / 'SHA256SUMS').read_text()
        for path in [*PATHS, 'RELEASE', 'CHANGELOG.md']:
            self.assertIn(f'{hashlib.sha256((folder / path).read_bytes()).hexdigest()}  {path}\n', sums)
        self.assertEqual(sums.count('\n') + 1, sum(path.is_file() for path in folder.rglob('*')))
        told = (folder / 'RELEASE').read_text()
        for part in 'vll 1.2.3\n', f'commit {self.git("rev-parse", "HEAD")}\n', 'with a kit 7:', 'vll_part, vll.', \
                'No licence was chosen':
            self.assertIn(part, told)

    @unittest.skipUnless(shutil.which('git'), 'there is no git')
    def test_release_is_the_same_bytes_again(self):
        self.commit()
        self.install()
        one = self.release('one').read_bytes()
        time.sleep(1.1)
        self.assertEqual(self.release('two').read_bytes(), one)

    @unittest.skipUnless(shutil.which('git'), 'there is no git')
    def test_release_refuses_what_is_no_state_to_hand_on(self):
        self.commit()
        self.write(self.program, PROGRAM, 0o755)
        self.assertIn('did not build this program', self.release('two'))
        self.program.unlink()
        self.install()
        for path in 'CHANGELOG.md', 'not_added':
            self.write(self.top / path, 'changed')
            self.assertIn('the tree has changes', self.release('two'))
            self.git('add', '-A')
            self.git('commit', '-q', '-m', path)
        self.write(self.program, f'{PROGRAM}# another\n', 0o755)
        self.assertIn('did not build this program', self.release('two'))
        self.assertFalse((self.room / 'two').exists())

    @unittest.skipUnless(shutil.which('git'), 'there is no git')
    def test_release_is_of_a_program_that_is_no_older_than_its_sources(self):
        """It is built first if it is missing, older than a source, or made from other crates."""
        self.commit()
        self.assertTrue(self.release('one').is_file())
        for path in 'crates/vll_part/src/lib.rt', 'HANDLES':
            os.utime(self.top / path)
            built = self.program.stat().st_mtime_ns
            self.assertTrue(self.release('one').is_file())
            self.assertGreater(self.program.stat().st_mtime_ns, built)
        (self.top / 'build/made_from').write_text('vll:\n')
        os.utime(self.top / 'crates.txt')
        self.assertTrue(self.release('one').is_file())
        self.assertEqual((self.top / 'build/made_from').read_text(), 'vll_part: kit\nvll: vll_part \n')


if __name__ == '__main__':
    unittest.main()
