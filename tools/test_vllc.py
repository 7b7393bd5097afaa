#!/usr/bin/env python3
"""Tests clients/vllc.py: what a text compiles to, each mistake with its line and column, and the command line.

That a scenario's text compiles to that scenario again is shown by `tools/trials texts`.
"""
import json
import random
import re
import subprocess
import sys
import unittest

from cases import TOP

sys.path.insert(0, str(TOP / 'clients'))
# pylint: disable=wrong-import-position
import vllc  # noqa: E402
from vll_text.lexer import tokens_of  # noqa: E402

COMMAND = TOP / 'clients/vllc.py'

# An expression and its tree, where n and m are arguments 0 and 1, and x is local 0.
EXPRESSIONS = [
    ('1', 1),
    ('18446744073709551615', (1 << 64) - 1),
    ('n', ['arg', 0]),
    ('x', ['local', 0]),
    ('stock[2]', ['key', 0]),
    ('number(stock[2])', 3),
    ('n + m - 1', ['sub', ['add', ['arg', 0], ['arg', 1]], 1]),
    ('n - (m - 1)', ['sub', ['arg', 0], ['sub', ['arg', 1], 1]]),
    ('n + m * 2', ['add', ['arg', 0], ['mul', ['arg', 1], 2]]),
    ('(n + m) * 2', ['mul', ['add', ['arg', 0], ['arg', 1]], 2]),
    ('n * m / 2 % 3', ['rem', ['div', ['mul', ['arg', 0], ['arg', 1]], 2], 3]),
    ('n < m + 1', ['less', ['arg', 0], ['add', ['arg', 1], 1]]),
    ('n > m', ['less', ['arg', 1], ['arg', 0]]),
    ('n >= m', ['not', ['less', ['arg', 0], ['arg', 1]]]),
    ('n <= m', ['not', ['less', ['arg', 1], ['arg', 0]]]),
    ('n == m', ['equal', ['arg', 0], ['arg', 1]]),
    ('n != m', ['not', ['equal', ['arg', 0], ['arg', 1]]]),
    ('(n < m) == 1', ['equal', ['less', ['arg', 0], ['arg', 1]], 1]),
    ('not n == m', ['not', ['equal', ['arg', 0], ['arg', 1]]]),
    ('not not n', ['not', ['not', ['arg', 0]]]),
    ('not n and m', ['min', ['not', ['arg', 0]], ['arg', 1]]),
    ('n or m and x', ['max', ['arg', 0], ['min', ['arg', 1], ['local', 0]]]),
    ('n or m or x', ['max', ['max', ['arg', 0], ['arg', 1]], ['local', 0]]),
    ('n < 1 or n > 2', ['max', ['less', ['arg', 0], 1], ['less', 2, ['arg', 0]]]),
    ('min(n, m + 1)', ['min', ['arg', 0], ['add', ['arg', 1], 1]]),
    ('max(n, 1) + 1', ['add', ['max', ['arg', 0], 1], 1]),
]

# Statements of a procedure with the arguments write a, read b, n, and its keys and its body.
BODIES = [
    ('', ['a', 'b'], []),
    ('a = b', ['a', 'b'], [['set', 0, ['key', 1]]]),
    ('a += n; a -= n a *= n\na /= n; a %= n', ['a', 'b'],
     [['set', 0, [word, ['key', 0], ['arg', 2]]] for word in ('add', 'sub', 'mul', 'div', 'rem')]),
    ('reply a, number(b) reply n', ['a', 'b'], [['reply', ['key', 0]], ['reply', ['arg', 1]], ['reply', ['arg', 2]]]),
    ('abort 7; abort too_little', ['a', 'b'], [['abort', 7], ['abort', 3]]),
    ('let x = n x = x + 1; x += 2', ['a', 'b'],
     [['let', 0, ['arg', 2]], ['let', 0, ['add', ['local', 0], 1]], ['let', 0, ['add', ['local', 0], 2]]]),
    ('if n { let y = 1 } else { let x = 1 let y = 2 } reply y', ['a', 'b'],
     [['if', ['arg', 2], [['let', 0, 1]], [['let', 1, 1], ['let', 0, 2]]], ['reply', ['local', 0]]]),
    ('if n { abort 1 } else if b { } else { abort 2 }', ['a', 'b'],
     [['if', ['arg', 2], [['abort', 1]], [['if', ['key', 1], [], [['abort', 2]]]]]]),
    ('repeat 3 { let x = 1 } reply x', ['a', 'b'], [['repeat', 3, [['let', 0, 1]]], ['reply', ['local', 0]]]),
    ('repeat 0 { let x = 1 } let x = 2', ['a', 'b'], [['repeat', 0, [['let', 0, 1]]], ['let', 0, 2]]),
    ('reply fees fees = stock[1]', ['a', 'b', ['write', 'fixed', 4], ['read', 'fixed', 2]],
     [['reply', ['key', 2]], ['set', 2, ['key', 3]]]),
]

# The lists behind `using`, and the keys behind those of the arguments write a, read b.
USINGS = [
    ('read fees', [['read', 'fixed', 4]]),
    ('write stock[0], read fees as f', [['write', 'fixed', 1], ['read', 'fixed', 4]]),
    ('read n as c', [['read', 'arg', 2]]),
    ('write a as c, read a as d', [['write', 'arg', 0], ['read', 'arg', 0]]),
    ('write through b as c', [['write', 'through', 1]]),
    ('read fees, write fees as f, read through fees as g',
     [['read', 'fixed', 4], ['write', 'fixed', 4], ['read', 'through', 2]]),
    ('read n as c, read through c as d', [['read', 'arg', 2], ['read', 'through', 2]]),
]

HEAD = 'record one = fees record stock[3] = [5, 1, one] record fees\ncode too_little = 3\n'


def in_body(text):
    """A procedure with these statements, after which all arguments have been used."""
    return HEAD + 'proc p(write a, read b, n) {\n' + text + '\nreply a + b + n }\n'


# A text with a mark @ before what is wrong, and words of what is told.
MISTAKES = [
    # characters and tokens
    ('record a\nproc @$', "'$' begins nothing"),
    ('record a = @1b', 'followed by a letter'),
    ('record a\n  proc @"p() { }', 'no end in its line'),
    (r'record a proc @"\q"() { }', 'no text of JSON'),
    (r'record a proc @"\ud800"() { }', 'no text of JSON'),
    ('record a\n@procs', 'begins no part'),
    ('record a # b\n\n \n  @procs', 'begins no part'),
    ('record a @5', 'begins no part'),
    ('record @', "a record's name is missing before the end"),
    ('record @if', 'cannot be the word "if"'),
    ('record a = @18446744073709551616', 'a number is 0 to 18446744073709551615'),
    ('record a = @' + '9' * 5000, 'a number is 0 to 18446744073709551615'),
    # records and codes
    ('@proc p() { }', 'there is no record'),
    ('record a record @a', 'a record a already'),
    ('record a[@0]', 'how many records is 1 to 65536'),
    ('record a[@65537]', 'how many records is 1 to 65536'),
    ('record a[65536] record @b', '65536 records at most'),
    ('record @a[3] = [1, 2]', 'is 3 records, and here are 2 values'),
    ('record a = @[1]', 'a number or a record is missing'),
    ('record a = @b', 'there is no b here'),
    ('record a code b = @65536', 'a code is 0 to 65535'),
    ('record a code b = 1 code @b = 2', 'a code b already'),
    # options and events
    ('record a version @3', 'version is 1 to 2'),
    ('record a cap @0', 'cap is 1 to 65536'),
    ('record a bits @1048577', 'bits is 1 to 1048576'),
    ('record a limit 1 @limit 2', 'a limit already'),
    ('record a hash @modulus', 'hash is modulo or spread'),
    ('record a schedule { claim; @clam }', 'is no event'),
    ('record a schedule { load @}', 'a ticket is missing'),
    ('record a schedule { enter @4294967296 }', 'a client is 0 to 4294967295'),
    ('record a schedule { claim@', '"}" is missing before the end'),
    # clients and calls
    (HEAD + 'client { @p() }', 'no procedure p'),
    (in_body('') + '\nclient { p(one, fees, 1)\n  @p(one, fees) }', 'takes 3 arguments, and here are 2'),
    (in_body('') + 'client { p(one, @4, 1) }', 'the argument b of p is a record'),
    (in_body('') + 'client { p(one, stock[@3], 1) }'.replace('stock[@3]', '@stock[3]'), 'has 3 records'),
    (in_body('') + 'client { p(@stock, fees, 1) }', 'is 3 records: an index says which'),
    (in_body('') + 'client { p(@fees[0], fees, 1) }', 'is one record, without an index'),
    (in_body('') + 'client { p(@two, fees, 1) }', 'there is no two here'),
    ('record a clients @1025', 'how many clients is 0 to 1024'),
    ('record a clients 1024 @client { }', '1024 clients at most'),
    ('record a proc p() { } clients 1 client {' + 'p() ' * 65536 + '@p() }', '65536 calls at most'),
    # a procedure's head
    (HEAD + 'proc p() { } @proc p() { }', 'a procedure p already'),
    (HEAD + 'proc p(_a, _b, _c, _d, _e, _f, _g, _h, @_i) { }', '8 arguments at most'),
    (HEAD + 'proc p(_a, @_a) { }', '_a is an argument already'),
    (HEAD + 'proc p(read @fees) { reply fees }', 'fees is a record already'),
    (HEAD + 'proc p(a,\n  @b) { reply a }', 'the argument b is not used'),
    (HEAD + 'proc p(read @a) { }', 'the argument a is not used'),
    (HEAD + 'proc p() using @fees { }', '"read" or "write" is missing'),
    (HEAD + 'proc p(a) using @read a { }', 'needs a name'),
    (HEAD + 'proc p(read a) using @write through a { }', 'needs a name'),
    (HEAD + 'proc p() using read fees, @write fees { }', 'listed already'),
    (HEAD + 'proc p() using @write fees as one { }', 'one is a record already'),
    (HEAD + 'proc p(a) using @write fees as a { reply a }', 'a is an argument already'),
    (HEAD + 'proc p() using write fees as f, @read one as f { }', 'f is a record of this procedure already'),
    (HEAD + 'proc p() using read @stock[3] { }', 'has 3 records'),
    (HEAD + 'proc p(a) using read through @a as b { }', 'a is a number: declare it as read a'),
    (HEAD + 'proc p() using read through @fees as b { }', 'has to be listed before'),
    (HEAD + 'proc p(read a) using read through a as b, read through @a as c { }', 'one record through another at most'),
    (HEAD + 'proc p(read a) using read @a[1] as b { }', 'a has no index'),
    (HEAD + 'proc p() using ' + ', '.join(f'read fees as f{n}' for n in range(32)) + ', @read one { }',
     '32 keys at most'),
    ('version 1\n' + HEAD + 'proc p() using ' + ', '.join(f'read fees as f{n}' for n in range(16)) + '{ reply @one }',
     '16 keys at most in version 1'),
    # names in a body
    (in_body('reply n + @c'), 'there is no c here'),
    (in_body('reply @too_little'), 'there is no too_little here'),
    (in_body('abort @much'), 'there is no code much'),
    (in_body('abort @too_little[0]'), 'there is no code too_little[0]'),
    (in_body('reply @stock[3]'), 'has 3 records, from stock[0] on'),
    (in_body('reply @stock'), 'an index says which'),
    (in_body('reply @a[0]'), 'a has no index'),
    (in_body('reply @n[0]'), 'n has no index'),
    (in_body('let x = 1 reply @x[0]'), 'x has no index'),
    (in_body('let @n = 1'), 'n is an argument already'),
    (in_body('let @a = 1'), 'a is an argument already'),
    (in_body('let @fees = 1'), 'fees is a record already'),
    (in_body('let x = 1\nlet @x = 2'), 'a local x already'),
    (in_body('let x = 1 if n { let @x = 2 }'), 'a local x already'),
    (in_body('let x = @x'), 'there is no x here'),
    (in_body('if n { let x = 1 }\nreply @x'), 'x has no value on some way to here'),
    (in_body('if n { abort 1 } else { let x = 1 }\nreply @x'), 'x has no value on some way to here'),
    (in_body('if n { let x = 1 } else { reply @x }'), 'x has no value on some way to here'),
    (in_body('repeat 0 { let x = 1 } reply @x'), 'x has no value on some way to here'),
    (in_body('if n { let x = 1 } @x += 1'), 'x has no value on some way to here'),
    (in_body(' '.join(f'let x{n} = 1' for n in range(8)) + ' let @y = 1'), '8 locals at most'),
    (in_body('@n = 1'), 'n is a number, which a call gives'),
    (in_body('@b = 1'), 'b is only read: declare it as write b'),
    (HEAD + 'proc p() using read stock[1] { @stock[1] += 1 }', 'stock[1] is only read: declare it as write stock[1]'),
    (HEAD + 'proc p(read a) using read a as c { reply number(@c) }', 'its number is not known'),
    # statements and expressions
    (in_body('@5'), 'a statement is missing before "5"'),
    (in_body('a @5'), '"=" or one like "+=" is missing'),
    (in_body('a @== 5'), '"=" or one like "+=" is missing'),
    (in_body('a = @}'), 'an expression is missing'),
    (in_body('a = (1 @}'), '")" is missing'),
    (in_body('a = min(1@)'), '"," is missing'),
    (in_body('a = 1 < 2 @< 3'), 'comparisons do not follow each other'),
    (in_body('a = 1 + @not 2'), 'put it in parentheses'),
    (in_body('a = 1 == @not 2'), 'put it in parentheses'),
    (in_body('abort @65536'), 'a code is 0 to 65535'),
    (in_body('repeat @65 { }'), 'how many turns is 0 to 64'),
    (in_body('if n @abort 1'), '"{" is missing'),
    ('version 1\n' + in_body('if n { @repeat 1 { } }'), 'version 1 has no repeat'),
    # measures
    (in_body('reply 1, 2, 3, 4, 5, 6, 7, 8, @9'), 'has 9 replies, and 8 is the most'),
    (in_body('reply n @repeat 2 { reply 1, 2, 3, 4 }'), 'has 9 replies'),
    (in_body('reply n @if n { reply 1 } else { reply 1, 2, 3, 4, 5, 6, 7, 8 }'), 'has 9 replies'),
    (in_body('a = 1' + ' + 1' * 30 + ' @+ 1'), 'too deep: keep a part of it in a local'),
    (in_body('a = ' + '(' * 100 + '@('), 'this is too deep'),
    (in_body('a = 1 @if n {' + 'if n {' * 30 + 'a = 1' + '}' * 31), 'has 33 levels, and 32 is the most'),
    (in_body('a = 1 @if n { a = 1' + ' + 1' * 30 + ' }'), 'has 33 levels, and 32 is the most'),
    (in_body('abort 1 ' * 1024 + '@abort 1'), 'has 1025 nodes, and 1024 is the most'),
    (in_body('a = n a = n\n@repeat 64 { repeat 64 { repeat 64 { a = 1 } } }'), 'has 528453 nodes'),
]


def procedure_of(text):
    """The first procedure that a text describes."""
    return vllc.scenario_of(text)['procs'][0]


class Texts(unittest.TestCase):
    """What a text compiles to, and what is told of one that does not."""

    def test_expressions(self):
        for text, tree in EXPRESSIONS:
            with self.subTest(text):
                body = procedure_of(HEAD + 'proc p(n, m) { let x = n + m reply %s }' % text)['body']
                self.assertEqual(body[1], ['reply', tree])

    def test_bodies(self):
        keys = {'a': ['write', 'arg', 0], 'b': ['read', 'arg', 1]}
        for text, found, body in BODIES:
            with self.subTest(text):
                procedure = procedure_of(in_body(text))
                self.assertEqual(procedure['keys'], [keys[key] if key in ('a', 'b') else key for key in found])
                self.assertEqual(procedure['body'][:-1], body)

    def test_using(self):
        for text, keys in USINGS:
            with self.subTest(text):
                procedure = procedure_of(HEAD + 'proc p(write a, read b, n) using %s { reply a + b + n }' % text)
                self.assertEqual(procedure['keys'][2:], keys)

    def test_forms_of_the_page(self):
        """docs/SCENARIO.md has one procedure as text and as JSON, side by side."""
        found = re.search(r'```\n(proc withdraw.*?)```', (TOP / 'docs/SCENARIO.md').read_text(), re.DOTALL)[1]
        left, right = zip(*((line[:42], line[42:]) for line in found.splitlines()))
        procedure = procedure_of('record a code too_little = 7\n' + '\n'.join(left))
        self.assertEqual(procedure, json.loads('\n'.join(right)))

    def test_scenario(self):
        """Records by their names, scripts, options and events; a version only as high as it has to be."""
        text = '''record card = bob record ann = 5 # nothing follows
          record bob[2] = [1, 2] record rest[2] = 7
          hash spread cap 3 proc "a b"(read r, n) { reply r + n } limit 2
          client { "a b"(bob[1], 5); "a b"(card, ann) } clients 2 client { }
          schedule { find 0; claim load 7 }'''
        self.assertRaises(vllc.Mistake, vllc.scenario_of, text.replace('= bob ', '= bob[2] '))
        self.assertEqual(vllc.scenario_of(text.replace('= bob ', '= bob[1] ')), {
            'version': 1, 'records': [3, 5, 1, 2, 7, 7],
            'procs': [{'name': 'a b', 'args': 2, 'keys': [['read', 'arg', 0]],
                       'body': [['reply', ['add', ['key', 0], ['arg', 1]]]]}],
            'clients': [[{'proc': 'a b', 'args': [3, 5]}, {'proc': 'a b', 'args': [0, 1]}], [], [], []],
            'hash': 'spread', 'cap': 3, 'limit': 2, 'schedule': [['find', 0], ['claim'], ['load', 7]]})
        self.assertEqual(vllc.scenario_of('record a version 2')['version'], 2)
        self.assertEqual(vllc.scenario_of('record a proc p() { repeat 1 { } }')['version'], 2)
        listed = ', '.join(f'read a as a{number}' for number in range(17))
        self.assertEqual(vllc.scenario_of(f'record a proc p() using {listed} {{ }}')['version'], 2)

    def test_mistakes(self):
        """Each is told at its place."""
        for text, words in MISTAKES:
            with self.subTest(text[-200:]):
                before, _, after = text.partition('@')
                with self.assertRaises(vllc.Mistake) as told:
                    vllc.scenario_of(before + after)
                self.assertIn(words, str(told.exception))
                place = before.count('\n') + 1, len(before) - before.rfind('\n')
                self.assertEqual(told.exception.at, place)

    def test_what_is_just_within_the_limits(self):
        for text in ('a = 1' + ' + 1' * 30, 'abort 1 ' * 1021, 'repeat 2 { reply 1, 2, 3, 4 }',
                     'if n { reply 1, 2, 3, 4, 5, 6, 7, 8 } else { reply 1 }', 'if n {' * 30 + 'a = 1' + '}' * 30,
                     'repeat 64 { repeat 31 { repeat 31 { } } }'):
            with self.subTest(text[:40]):
                vllc.scenario_of(HEAD + 'proc p(write _a, n) { ' + text.replace('a =', '_a =') + ' if n { } }')

    def test_any_tokens_compile_or_are_told(self):
        """Texts with tokens left out, doubled and exchanged: there is no other end than a scenario or a mistake."""
        rng = random.Random('tokens')
        texts = [path.read_text() for path in sorted((TOP / 'examples').glob('*.vll'))]
        compiled = 0
        for _ in range(500):
            tokens = [token.text for token in tokens_of(rng.choice(texts))[:120]]
            for _ in range(rng.choice([1, 1, 2, 4])):
                at = rng.randrange(len(tokens))
                tokens[at:at + 1] = rng.choice([[], [tokens[at]] * 2, [rng.choice(tokens)]])
            try:
                compiled += bool(vllc.scenario_of(' '.join(tokens)))
            except vllc.Mistake:
                pass
        self.assertGreater(compiled, 20)

    def test_no_scenario_has_no_text(self):
        """What vll refuses is refused here, and never written as something else."""
        good = '{"version":1,"records":[1],"procs":[{"name":"p","args":1,"keys":[],"body":[]}],"clients":[]}'
        vllc.text_of_json(good)
        for old, new in (('1],', '1.0],'), ('1],', '-0],'), ('1],', 'true],'), ('1],', '[]],'), ('1],', '],'),
                         ('"args":1', '"args":true'), ('"args":1', '"args":9'), ('"name":"p"', '"name":5'),
                         ('"body":[]', '"body":[["set",0,1]]'), ('"body":[]', '"body":[["reply",["local",0]]]'),
                         ('"body":[]', '"body":[["mull",1,2]]'), ('"body":[]', '"body":[["reply",1,2]]'),
                         ('"clients":[]', '"clients":[[{"proc":"q","args":[]}]]'), ('"clients":[]', '"clients":null'),
                         ('"clients":[]', '"clients":[],"Cap":8'), ('"clients":[]', '"clients":[],"hash":"none"'),
                         ('"version":1', '"version":3'), ('{"version"', '[{"version"'), ('1],', '1e3],'),
                         ('1],', '[' * 5000 + ']' * 5000 + '],')):
            with self.subTest(new[:40]):
                self.assertIn(old, good)
                self.assertRaises(ValueError, vllc.text_of_json, good.replace(old, new, 1))


class CommandLine(unittest.TestCase):
    """clients/vllc.py as a command."""

    def run_it(self, *words, given=b''):
        ran = subprocess.run([sys.executable, COMMAND, *words], input=given, capture_output=True, check=False)
        return ran.returncode, ran.stdout.decode(), ran.stderr.decode()

    def test_both_ways(self):
        status, text, said = self.run_it('--text', TOP / 'examples/04_transfer_with_a_fee.json')
        self.assertEqual((status, said), (0, ''))
        status, found, said = self.run_it('-', given=text.encode())
        self.assertEqual((status, said), (0, ''))
        self.assertEqual(json.loads(found), json.loads((TOP / 'examples/04_transfer_with_a_fee.json').read_text()))

    def test_faults(self):
        for words, given, told in ((['-'], b'record a\n  proc 5', r'-:2:8: a procedure.s name is missing before "5"\n'),
                                   (['-'], b'record a\n# \xc3\xa9 \xff', r'-:2:5: these bytes are not UTF-8\n'),
                                   (['no_such_file'], b'', r'no_such_file: .*\n'),
                                   (['--text', '-'], b'{"version":1}', r'-: this is no scenario that vll accepts.*\n'),
                                   (['--text', '-'], b'[', r'-: this is no scenario that vll accepts.*\n'),
                                   ([], b'', r'usage: (.|\n)*')):
            status, found, said = self.run_it(*words, given=given)
            self.assertEqual((status, found), (2, ''), words)
            self.assertTrue(re.fullmatch(told, said), said)


if __name__ == '__main__':
    unittest.main()
