#!/usr/bin/env python3
"""Tests that the scripts of tools/ find fault with what is wrong, so that none of them passes silently.

    python3 tools/test_scripts.py
"""
import itertools
import os
import re
import subprocess
import sys
import tempfile
import unittest
from pathlib import Path

import check_docs
import check_schema
import listing
from cases import TOP, bytes_of, read_cases
from explaining import is_as_written, unexplained
from generate import chosen_by, scenario_of
from trial_pages import PICTURE, with_attributes
from sources import SENTENCES, Sources, Specs, functions_of

TOOLS = Path(__file__).resolve().parent

BUMPS = '''\
{"version":1,"records":[5],"clients":[[{"proc":"bump","args":[]}],[{"proc":"bump","args":[]}]],
 "procs":[{"name":"bump","args":0,"keys":[["write","fixed",0]],
  "body":[["set",0,["add",["key",0],1]],["reply",["key",0]]]}]}
'''
LAWFUL = 'call 0 client 1 committed 6\ncall 1 client 0 committed 7\nrecord 0 value 7 pair 0\n'

# The files of some cases, in each form that there is.
FILES = {
    'scenarios/steps.cases': f"""\
==== cap
vll run --cap '3 4'
{{}}
----
{{}}
==== judged
vll run
{BUMPS}---- judged
{LAWFUL}""",
    'scenarios/replay/pair.json': '0 opened\n',
    'scenarios/replay/pair.out': '0 opened\n',
    'scenarios/made.json.sh': "printf '%s\\n' a b c\n",
    'scenarios/made.out.sh': 'echo a; echo b; echo c\n',
    'scenarios/made.args': 'run\n--workers\n8\n',
    'scenarios/table.tsv': '\n'.join([
        '# a comment, and an empty line', '',
        'refused\trun\tvll: scenario: json\tvll: scenario: json',
        'failed\treplay\tvll: replay: no memory\tvll: replay: no memory',
        "words\trun '' --cap=1\tvll: command line\tunread",
        'lines\trun\t@lines.out\t{"a":1,\t "b":2}',
        'judged_row\trun\t@judge\t@bumps.json', '']),
    'scenarios/lines.out': '{"a":1,\n "b":2}\n',
    'scenarios/bumps.json': BUMPS,
}
WORDS = {'cap': 'run,--cap,3 4', 'failed': 'replay', 'judged': 'run', 'judged_row': 'run', 'lines': 'run',
         'made': 'run,--workers,8', 'pair': 'replay', 'refused': 'run', 'words': 'run,,--cap=1'}

# What is no case, and what is told of it.
FAULTS = [
    ('a.out', '', 'scenarios/a: there is no .json, or neither .out nor .judge'),
    ('a.txt', '', 'scenarios/a.txt is no part of a case'),
    ('made.json', '', 'scenarios/made: a part is there, and its script too'),
    ('a.cases', 'vll run\n{}\n----\nx\n', 'scenarios/a.cases does not begin with a line ==== and a name'),
    *(('a.cases', f'==== b\nvll run\n{{}}\n----\nx\n==== a\n{text}',
       'scenarios/a.cases:6: it lacks a command, a line ---- after the scenario, or what is printed')
      for text in ('run\n{}\n----\nx\n', 'vll run\n{}\nx\n', 'vll run\n{}\n----\n', 'vll run\n{}\n----\nx\n----\n')),
    ('a.cases', '==== made\nvll run\n{}\n----\nx\n', 'scenarios/a.cases:1 and scenarios/made have one name'),
    ('t.tsv', 'a\trun\tb\n', 'scenarios/t.tsv:1: there are 3 cells, and not 4 or more'),
    ('t.tsv', '#\na\trun\tb\t@c.json\n', 'scenarios/t.tsv:2: there is no c.json'),
]

# A program that prints what it reads with a line end behind it, and ends with the status that goes with that. What it
# explains, on standard error if it is not asked to, is that a text is no JSON text.
RIGHT = f'''
[ "$*" = 'run  --cap=1' ] && echo 'vll: command line' &&
  printf '%s\\n' 'error: no' '' "For more information, try '--help'." >&2 && exit 2
text=$(cat)
case $text in *bump*) text='{LAWFUL.rstrip()}' ;; esac
printf '%s\\n' "$text"
case $text in 'vll: scenario'*)
  [ "$*" = explain ] || {{ exec >&2; printf '%s\\n' "$text"; }}
  printf '%s\\n' 'at: line 1, column 1' 'why: invalid JSON'
esac
case $text in 'vll: scenario'*) exit 2 ;; 'vll: replay'*) exit 1 ;; esac
exit 0
'''

# Programs that are wrong: what stands in the place of which part of the right one, and the cases that fail then.
WRONG = [
    ("'vll: scenario'*) exit 2", "'vll: scenario'*) exit 0", 'refused'),
    ("'vll: replay'*) exit 1", "'vll: replay'*) exit 2", 'failed'),
    ('\nexit 0', '\nexit 1', 'cap judged judged_row lines made pair'),
    ("printf '%s\\n' \"$text\"", 'printf %s "$text"', 'cap failed judged judged_row lines made pair refused'),
    ('text=$(cat)', 'text=$(cat); [ "$text" = "0 opened" ] && echo x >&2', 'pair'),
    ("] && echo 'vll", "] && read line && echo 'vll", 'words'),
    ('committed 7', 'committed 6', 'judged judged_row'),
    ('text=$(cat)', '[ "$2" = --workers ] && exit 1; text=$(cat)', 'made'),
    ('[ "$*" = explain ]', 'false', 'refused'),
    ("invalid JSON'", "invalid JSON' && [ $1 = explain ] && exit 1", 'refused'),
    ('exec >&2', ':', 'refused'),
    ('|| {', '|| exit 2; {', 'refused'),
    ("exec >&2; printf '%s\\n' \"$text\"", 'exec >&2', 'refused'),
    ("'at: line 1, column 1'", '"at: line 1, column ${#1}"', 'refused'),
    ("'error: no'", "'no'", 'words'),
    ("try '--help'", 'try it', 'words'),
    (' >&2 && exit 2', ' && exit 2', 'words'),
    ('text=$(cat)', 'text=$(cat); [ "${text%%bump*}" = "$text" ] || echo x >&2', 'judged judged_row'),
    ('text=$(cat)', 'text=$(head -n 2)', 'made'),
]

FAULT = b'vll: scenario: check 1 9\n'
EXPLAINED = FAULT + b'at: procs 1 ("pay"), body, value\nwhy: local 3 is read before it is surely set: set it\n'
# What is changed in that, so that it explains the fault no longer.
UNEXPLAINED = [(b'check 1', b'check 2'), (b'procs 1', b'procs 2'), (b', body', b''), (b'why: ', b''),
               (b'set it\n', b''), (b'local 3 is read', b'key 3 is read'), (b'pay', b'\xc3\xa4'),
               (b'local 3', b'3' * 30000), (b'set it', b'a second look did not find it'), (b'it\n', b'it\nmore\n')]

# A drawing whose colours are variables, and what it becomes.
DRAWING = '''<svg>
<style>
:root { --ink: #111111; --good: #00ff00; }
@media (prefers-color-scheme: dark) { :root { --ink: #eeeeee; --good: #88ff88; } }
svg text { fill: var(--ink); }
svg text.good, svg text.fine { fill: var(--good); font-weight: 600; }
svg a:hover .cell { fill: var(--ink); }
.cell { fill: transparent; }
.box { fill: var(--ink); stroke: var(--good); stroke-width: 1.5; }
.grid { stroke: var(--ink); fill: none; }
</style>
<text x="1">a</text><text class="fine" x="2">b</text><a><rect class="cell"/></a><rect class="box end"/>
<path class="grid" d="M0 0"/></svg>
'''
ATTRIBUTED = DRAWING.partition('<text')[0] + '''\
<text fill="#111111" x="1">a</text><text class="fine" fill="#00ff00" x="2">b</text><a><rect class="cell" fill="none"/></a>\
<rect class="box end" fill="#111111" stroke="#00ff00"/>
<path class="grid" stroke="#111111" fill="none" d="M0 0"/></svg>
'''

# What is spoiled: the page, the first place that a pattern matches there, what stands there then, and what is told.
SPOILED = [
    ('docs/HEADLINE.md', r'\n\n', '\n\nIt says `IsNothingAtAll`.\n\n', 'is not declared in any crate'),
    ('docs/HEADLINE.md', r'`claims_on`', '`open_in`', 'claims_on of Sentence 5 is not named'),
    ('docs/HEADLINE.md', r'\d+ definitions', '3 definitions', 'definitions'),
    ('docs/PROMISES.md', r'(\| `\w+::)\w+(` \(vll)', r'\1secret\2', 'is no function of vll_'),
    ('docs/PROMISES.md', r'(\) \| `)\w+', r'\1unheard_of', 'unheard_of is no clause of'),
    ('docs/PROMISES.md', r'\| Function \|', '| Functions |', 'no clause is looked at'),
    ('docs/PROMISES.md', r'only \d+ public', 'only 7 public', 'public functions allocate'),
    ('docs/PROMISES.md', r' public functions allocate', ' functions allocate', 'it does not say once'),
    ('docs/ALGORITHM.md', r'`\w+` \(vll', '`claw` (vll', 'claw is not in vll'),
    ('docs/HEADLINE.md', r'\n```\n(\w+)', r'\n```\n\1x', 'no source has: '),
    ('docs/ARCHITECTURE.md', r'(`[A-Z]\w+::)[a-z]\w*`', r'\1unheard_of`', 'has no function unheard_of'),
    ('docs/ARCHITECTURE.md', r'(\]\([A-Z]+\.md#)[\w-]+', r'\1nowhere', 'there is no heading'),
    ('README.md', r'24,000 lines', '30,000 lines', 'lines of code with contracts'),
    ('README.md', r'committed 70', 'committed 71', 'transfer.out is not what is quoted here'),
    ('README.md', r'(\| bodies of 500 nodes.*?\| )[\d,]+', r'\g<1>1', 'these are not the figures of docs/speed.csv'),
    ('examples/README.md', r'0 opened', '0 closed', 'this is not what is printed'),
]

# Signatures, the lines of a function's head, and whether they let it return that memory lacks.
SIGNATURES = [
    (['pub fn f(alloc: Global) -> Result<Bits, Other> {'], True),
    (['pub fn f(alloc: Global) -> Reader {'], False),
    (['pub fn f(', '    text: &mut String,', '    number: u64,', ') -> Result<(), Fault>', '    ensures {}', '{'], True),
    (['pub fn f(text: &mut String) -> Result<(), Other> {'], False),
    (['pub fn f(text: &str) -> Result<(), Fault>', '    requires { String }', '{'], False),
    (['pub fn f(text: Vec<u8>) -> Result<Vec<u8>, Fault> {'], True),
    (['pub fn f(&mut self, event: &Event) -> Result<(), AllocError> {'], True),
    (['impl Keeper {', '    pub fn f(&mut self) -> Result<(), Fault> {'], True),
    (['impl Other {', '    pub fn f(&mut self) -> Result<(), Fault> {'], False),
]


class Scripts(unittest.TestCase):

    def setUp(self):
        room = tempfile.TemporaryDirectory()
        self.addCleanup(room.cleanup)
        self.room = Path(room.name)
        self.keep(FILES)

    def keep(self, files):
        for name, text in files.items():
            path = self.room / name
            path.parent.mkdir(parents=True, exist_ok=True)
            path.write_text(text)

    def said_of(self, tool, script, *words):
        """The status and the lines of a tool for a program that is this script."""
        self.keep({'program': f'#!/bin/sh\n{script}\n'})
        (self.room / 'program').chmod(0o755)
        ran = subprocess.run([sys.executable, TOOLS / tool, '--program', self.room / 'program', *words],
                             env={**os.environ, 'TMPDIR': str(self.room)}, stdout=subprocess.PIPE, check=False)
        return ran.returncode, ran.stdout.decode().splitlines()

    def test_cases_are_read_in_each_form(self):
        cases, faults = read_cases(self.room)
        self.assertEqual(faults, [])
        self.assertEqual({case.name: b','.join(case.words).decode() for case in cases}, WORDS)
        self.assertEqual([case.name for case in cases if case.is_judged], ['judged', 'judged_row'])
        for case in cases:
            if not case.is_judged and case.name != 'words':
                self.assertEqual(bytes_of(case.text), case.wanted())

    def test_what_is_no_case_is_told(self):
        for name, text, fault in FAULTS:
            with self.subTest(name, text=text):
                self.setUp()
                self.keep({f'scenarios/{name}': text})
                self.assertEqual(read_cases(self.room)[1], [fault])

    def test_right_program_passes_and_wrong_ones_fail(self):
        self.assertEqual(self.said_of('scenarios', RIGHT, '--top', self.room), (0, ['scenarios: 9 passed, 0 failed']))
        for part, other, failing in WRONG:
            with self.subTest(other):
                script = RIGHT.replace(part, other, 1)
                self.assertNotEqual(script, RIGHT)
                status, lines = self.said_of('scenarios', script, '--top', self.room)
                self.assertEqual([line.partition(' FAILED: ')[0] for line in lines[:-1]],
                                 [f'scenario {name}' for name in failing.split()])
                self.assertEqual(status, 1)
                self.assertEqual(lines[-1], f'scenarios: {10 - len(lines)} passed, {len(lines) - 1} failed')

    def test_cases_are_chosen_by_name_and_what_is_not_there_fails(self):
        for names, status, last in [('made steps/cap', 0, '2 passed, 0 failed'), ('made x', 1, '1 passed, 1 failed'),
                                    ('replay/made', 1, '0 passed, 1 failed')]:
            found, lines = self.said_of('scenarios', RIGHT, '--top', self.room, *names.split())
            self.assertEqual((found, lines[-1]), (status, f'scenarios: {last}'))
        for top in self.room / 'scenarios/replay', self.room / 'nothing':
            self.assertEqual(self.said_of('scenarios', RIGHT, '--top', top)[1][-1], 'scenarios: 0 passed, 1 failed')
        self.assertEqual(self.said_of('scenarios', '', '--top', self.room, '--text', 'made'), (0, ['a', 'b', 'c']))
        self.keep({'scenarios/steps.cases': FILES['scenarios/steps.cases'].replace('committed 7', 'committed 6')})
        line = self.said_of('scenarios', RIGHT, '--top', self.room, 'judged')[1][0]
        self.assertTrue(line.startswith('scenario judged FAILED: the outcome that is kept is not lawful; '), line)

    def test_trials_of_a_program_that_does_nothing_fail(self):
        lines = self.said_of('trials', 'exit 0', '--refusals', self.room / 'program', 'command_line', 'faults',
                             'files', 'installed', 'lacks', 'service', 'refused_memory', 'refused_starts')[1]
        # it cannot be tried everywhere how threads are lacked and in a root of its own, a socket needs socat, and root
        # may read each file
        failed, skipped = map(int, re.fullmatch('trials: 0 passed, (.+) failed, (.+) skipped', lines[-1]).groups())
        self.assertEqual(failed + skipped, 125)
        self.assertLessEqual(skipped, 4)

    def test_random_tests_of_wrong_programs_fail(self):
        right = f'"{sys.executable}" "{TOOLS}/replay_model.py" /dev/stdin'
        words = '7', '3', '--size', '30'
        self.assertEqual(self.said_of('random_tests', right, 'replay', *words), (0, ['replay: 3 passed, 0 failed']))
        alone = [f'run {seed}' for seed in range(7, 67)
                 if chosen_by(scenario_of('run', seed, 30)[1]).get('--workers') == '1']
        self.assertTrue(alone)
        lines = self.said_of('random_tests', 'echo call 0 client 0 aborted moved', 'run', '7', '60', '--size', '30')[1]
        told = [line.partition(':')[0] for line in lines if 'though there is one worker' in line]
        self.assertEqual((told, lines[-1]), (alone, 'run: 0 passed, 60 failed'))
        for kind, script in [('replay', f'{right}; exit 1'), ('replay', f'{right}; echo x >&2'), ('replay', 'exit 0'),
                             ('replay', f'{right} | sed "$ s/value 0*/value 1/"'), ('run', 'echo call 0'),
                             ('run', 'cat'), ('run', 'kill -9 $$')]:
            with self.subTest(script):
                status, lines = self.said_of('random_tests', script, kind, *words)
                self.assertEqual((status, lines[-1]), (1, f'{kind}: 0 passed, 3 failed'))
                self.assertTrue(lines[0].endswith(f'; tools/random_tests {kind} 7 1 --size 30'), lines[0])

    def test_drawing_has_its_light_colours_as_attributes(self):
        self.assertEqual(with_attributes(DRAWING), ATTRIBUTED)
        self.assertNotIn('var(', re.sub('<style>.*</style>', '', PICTURE.read_text(encoding='utf-8'), flags=re.DOTALL))

    def test_what_explains_no_longer_is_refused(self):
        self.assertIsNone(unexplained(FAULT, EXPLAINED))
        for part, other in UNEXPLAINED:
            self.assertIsNotNone(unexplained(FAULT, EXPLAINED.replace(part, other)), other)

    def test_number_is_quoted_as_it_is_written(self):
        for why in (b'1e3 is not a key', b'a key begins with "read" or "write", not with 1e3; use them',
                    b'1e3 does not say which', b'1e.. is not a key'):
            for text, is_so in ((b'[0,1e3]', True), (b'1e3', True), (b'[1000.0]', False), (b'[11e2,-1e3]', False),
                                (b'[1E3]', False)):
                self.assertEqual(is_as_written(b'at: keys\nwhy: ' + why + b'\n', text), is_so, (why, text))
        self.assertFalse(is_as_written(b'why: 1e3 is not a key\n', b'[1e30]'))
        self.assertTrue(is_as_written(b'why: 9 is not in the range 1 to 8\n', b'[]'))

    @unittest.skipUnless(check_schema.Draft202012Validator, 'python3 has no jsonschema')
    def test_schema_that_takes_all_or_nothing_disagrees(self):
        asked = list(itertools.islice(check_schema.scenarios(), 100))
        for schema, word in ({}, 'refused'), ({'not': {}}, 'accepted'):
            lines = list(check_schema.disagreements(schema, asked))
            self.assertTrue(any(line.endswith(f'is not {word} by the schema') for line in lines))
            self.assertIn('version_with_a_point is named as an exception, and is no scenario', lines)

    def test_spoiled_page_is_told_of(self):
        texts, sources = check_docs.texts_of_pages(), Sources(TOP)
        specs = Specs(sources)
        for name, pattern, other, words in SPOILED:
            text = re.sub(pattern, other, texts[name], count=1)
            with self.subTest(words):
                self.assertNotEqual(text, texts[name])
                told = check_docs.check({**texts, name: text}, sources, specs).wrong
                self.assertTrue([line for line in told if line.startswith(name) and words in line], told)

    def test_signatures_that_can_lack_memory(self):
        for lines, can in SIGNATURES:
            with self.subTest(lines):
                function, = functions_of(lines)
                self.assertEqual(function.can_lack_memory({'Fault'}, {'Keeper'}), can)

    def test_each_definition_of_the_headline_is_listed_once(self):
        reached = Specs(Sources(TOP)).reached_from(*itertools.chain(*SENTENCES.values()))
        rows = [line.split(' | ') for _, lines in listing.headline(listing.all_crates()) for line in lines]
        listed = [(name, row[2]) for row in rows if row[0].startswith('| `') for name in re.findall('`(.+?)`', row[0])]
        files = {(crate, file): f'`{crate}/specs/{file.replace(".", "/")}.antt` |' for crate, file, _ in reached}
        self.assertEqual(sorted(listed), sorted((key[2], files[key[:2]]) for key in reached))

    def test_definition_that_is_needed_elsewhere_or_not_at_all_is_told_of(self):
        texts, sources = check_docs.texts_of_pages(), Sources(TOP)
        serves = 'vll_server', 'Headline.Serve', 'Serves'
        needed, unneeded = Specs(sources), Specs(sources)
        elsewhere = next(key for key in needed.texts if not key[1].startswith('Headline.'))
        needed.imports[serves[:2]]['elsewhere'] = elsewhere
        needed.texts[serves].append('elsewhere')
        unneeded.texts[serves[:2] + ('unneeded',)] = ['unneeded = 0']
        for specs, name in (needed, elsewhere[2]), (unneeded, 'unneeded'):
            told = check_docs.check(texts, sources, specs).wrong
            self.assertTrue([line for line in told if f'.{name} is not both needed' in line], told)


if __name__ == '__main__':
    unittest.main()
