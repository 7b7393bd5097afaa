"""The trial of `vll explain` on texts that are refused: it tells the way to the fault, as `vll run` does on standard
error, and each takes at most three times as long as it takes to refuse the same text with a byte behind it that makes it
no JSON. The texts are large, wide or nested deeply, and the fault comes last, so each level that is read anew would show.
What counts is processor time, since a machine may be busy."""
import os
import subprocess
import tempfile
import threading

from running import SECONDS

# How long explaining may take, in times of refusing what is no JSON, and in seconds what may come to it on a busy machine.
TIMES, MORE = 3, 0.1
SIZE = 1 << 20


def scenario(procedures='', scripts='', records='0', version=2, more=''):
    return f'{{"version":{version},"records":[{records}],"procs":[{procedures}],"clients":[{scripts}]{more}}}'


def procedure(body, keys='', args=0, name='p'):
    return f'{{"name":"{name}","args":{args},"keys":[{keys}],"body":[{body}]}}'


def doubled(times, around, within):
    """A full tree: each of its levels has the one below it twice."""
    for _ in range(times):
        within = around.format(within, within)
    return within


TREE = doubled(4, '["if",0,[{}],[{}]]', '["abort",0]')
SUM = doubled(5, '["add",{},{}]', '1')
CALL = '{"proc":"p","args":[]}'


def listed(item, last, size=SIZE):
    """Items of a list, as many as fit, and how many come before the last one."""
    count = (size - len(last)) // (len(item) + 1)
    return f'{item},' * count + last, count


def in_ifs(last, levels=55):
    """Full trees and what comes last within ifs, each in the second list of another one, and the way to the last."""
    inside, count = listed(TREE, last)
    return ('["if",0,[],[' * levels + inside + ']]' * levels,
            ', body' + ', statement 0, second list' * levels + f', statement {count}')


def in_operands(last, levels=90):
    """Sums as left operands, what comes last as the innermost right one, and the way to it."""
    left = doubled(9, '["add",{},{}]', '1')
    value = f'["add",{left},' * levels + last + ']' * levels
    return f'["reply",{value}]', ', body, statement 0, value' + ', right operand' * levels


def texts():
    """By what is at fault in it, each text, and the way that has to be told."""
    first = 'procs 0 ("p")'
    body, way = in_ifs('["let",0,["local",1]]')
    yield 'unset local in lists', scenario(procedure(body)), f'{first}{way}, value'
    body, way = in_ifs('["set",0,1]')
    yield 'read key that is set, in lists', scenario(procedure(body, '["read","fixed",0]')), f'{first}{way}'
    body, way = in_operands('["local",8]')
    yield 'unknown local in operands', scenario(procedure(body)), f'{first}{way}'
    inside, count = listed(TREE, '["reply",["local",0]]')
    body = '["repeat",1,[' * 55 + inside + ']]' * 55
    yield 'repeats', scenario(procedure(body)), f'{first}, body{", statement 0, list" * 55}, statement {count}, value'
    body = f'["if",{SUM},[' * 55 + inside + '],[]]' * 55
    way = ', body' + ', statement 0, first list' * 55
    yield 'tests', scenario(procedure(body)), f'{first}{way}, statement {count}, value'
    body, count = listed('["let",0,1]', '["let",0,1]')
    yield 'long body', scenario(procedure(body)), f'{first}, body'
    names = [f'p{number}' for number in range(SIZE // 64)]
    many = ','.join(procedure('["reply",1]', name=name) for name in names)
    unknown = procedure('["reply",["key",0]]', name='last')
    yield 'many procedures', scenario(f'{many},{unknown}'), f'procs {len(names)} ("last"), body, statement 0, value'
    yield 'name of an earlier procedure', scenario(f'{many},{procedure("", name="p0")}'), 'procs'
    script, count = listed(CALL, '{"proc":"q","args":[]}')
    yield 'call of no procedure', scenario(procedure(''), f'[{script}]'), f'clients 0, call {count}'
    script, count = listed(CALL, '{"proc":"p","args":[0]}')
    yield 'call with an argument too many', scenario(procedure(''), f'[],[{script}]'), f'clients 1, call {count}'
    yield from shapes(first)


def shapes(first):
    """The same for texts in which a piece is not what it has to be."""
    for what, last, behind in [('unknown statement', '["lot",0,1]', ''), ('statement without a value', '["let",0]', ''),
                               ('negative index', '["let",0,["local",-1]]', ', value, index')]:
        body, way = in_ifs(last)
        yield f'{what} in lists', scenario(procedure(body)), f'{first}{way}{behind}'
    for what, last in ('unknown operation', '["neg",1]'), ('list without a word', '[]'), ('object', '{}'):
        body, way = in_operands(last)
        yield f'{what} in operands', scenario(procedure(body)), f'{first}{way}'
    inside, count = listed(TREE, '["let",0]')
    body = '["repeat",1,[' * 55 + inside + ']]' * 55
    yield 'faulty repeats', scenario(procedure(body)), f'{first}, body{", statement 0, list" * 55}, statement {count}'
    body = f'["if",{SUM},[' * 55 + inside + '],[]]' * 55
    yield 'faulty tests', scenario(procedure(body)), f'{first}, body{", statement 0, first list" * 55}, statement {count}'
    body = '["if",0,[],[' * 55 + f'["foo",1,[{inside}],[]]' + ']]' * 55
    way = ', body' + ', statement 0, second list' * 55
    yield 'a large unknown statement', scenario(procedure(body)), f'{first}{way}, statement 0'
    body, count = listed('["reply",["not",1]]', '["reply",["not",true]]')
    yield 'wide body', scenario(procedure(body)), f'{first}, body, statement {count}, value, operand'
    keys, count = listed('["read","arg",0]', '["read","arg",-1]')
    yield 'wide keys', scenario(procedure('', keys, 1)), f'{first}, keys, key {count}, index'
    records, count = listed('0', '-1')
    yield 'records', scenario(records=records), f'records {count}'
    procedures, count = listed(procedure(TREE), procedure('["reply"]'))
    yield 'faulty procedures', scenario(procedures), f'procs {count} ("p"), body, statement 0'
    scripts, count = listed(f'[{CALL}]', '[{"proc":"p","args":[0,-1]}]')
    yield 'last call of many scripts', scenario(procedure(''), scripts), f'clients {count}, call 0, args, argument 1'
    script, count = listed(CALL, '{"proc":1,"args":[]}')
    yield 'last call of a long script', scenario(procedure(''), f'[{script}]'), f'clients 0, call {count}, proc'
    events, count = listed('["enter",0]', '["enter",-1]')
    yield 'events', scenario(more=f',"schedule":[{events}]'), f'schedule {count}, client'
    members = ','.join(f'"m{number}":0' for number in range(SIZE // 10))
    body = f'["reply",{{{members}}}]'
    yield 'object with many members', scenario(procedure(body)), f'{first}, body, statement 0, value'
    yield 'members that are not known', f'{{{members}}}', 'the scenario'


def processor_time(program, command, text):
    """How a command ended that reads this text, what it printed, also on standard error, and its processor time in
    seconds."""
    with tempfile.TemporaryFile() as file, tempfile.TemporaryFile() as printed, tempfile.TemporaryFile() as said:
        file.write(text)
        file.seek(0)
        running = subprocess.Popen([program, command], stdin=file, stdout=printed, stderr=said)
        late = threading.Timer(SECONDS, running.kill)
        late.start()
        _, status, usage = os.wait4(running.pid, 0)
        late.cancel()
        running.returncode = os.waitstatus_to_exitcode(status)
        printed.seek(0)
        said.seek(0)
        return running.returncode, printed.read(), said.read(), usage.ru_utime + usage.ru_stime


def explained(program, text, way):
    """Both commands refuse the text by the same line and the same explanation, and the way to the fault is told in
    time."""
    _, no_json, _, took = processor_time(program, 'run', text.encode() + b']')
    status, refused, said, longer = processor_time(program, 'run', text.encode())
    told, explanation, more, longest = processor_time(program, 'explain', text.encode())
    first, *lines = explanation.decode().split('\n')
    if no_json != b'vll: scenario: json\n':
        yield f'with a byte behind it: {no_json[:100]!r}'
    if (status, told) != (2, 2) or refused != f'{first}\n'.encode() or lines[:1] != [f'at: {way}']:
        yield f'status {status} and {told}; {refused[:100]!r}, {explanation[:100]!r} .. and not at: {way[-100:]}'
    if said != explanation or more:
        yield f'on standard error came {said[:200]!r} and {more[:200]!r}'
    print(f'{took:.2f} s to refuse what is no JSON, {longer:.2f} s and {longest:.2f} s to explain')
    if max(longer, longest) > TIMES * took + MORE:
        yield f'to refuse {len(text)} bytes takes {took:.2f} s, and to explain that {longer:.2f} s and {longest:.2f} s'


def faults(words, _):
    for what, text, way in texts():
        yield what, explained(words.program, text, way)
