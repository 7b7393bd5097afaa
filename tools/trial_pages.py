"""What `tools/trials drawings` tries: the pages that `vll draw` writes, beside what `vll replay` prints.

    python3 tools/trial_pages.py [PROGRAM]      makes docs/replay.svg anew by the program as it is built, or by this one
"""
import json
import re
import sys
import xml.etree.ElementTree
from html.parser import HTMLParser

from cases import TOP, bytes_of, read_cases, status_of
from generate import SIZES, scenario_of, text_of
from model import Unlawful
from replay_model import Machine
from running import called, explanation, unlike

PICTURE = TOP / 'docs/replay.svg'
PICTURED = TOP / 'examples/13_two_threads.json'
SEEDS = 300
# The most events that a schedule has, and what a page says of a scenario without one.
MOST_EVENTS = 1048576
WITHOUT_SCHEDULE = 'The scenario has no schedule.'
# How many events are drawn if nothing is said, and a window that is asked for.
DRAWN = 360
FIRST, COUNT = 50, 30
# What a page may have.
ELEMENTS = set('html head meta title style body h1 h2 p code dl dt dd figure figcaption svg path rect text a ol '
               'li'.split())
ATTRIBUTES = set('charset class content d height href id lang name transform viewbox width x xmlns y'.split())
# Of a name of a procedure: what would end an element or a reference, and what a page may not hold or show as it is.
NAMES = ['</text></svg><script>alert(1)</script>', '<!--', ']]>', '&amp;', '&lt', '"\'<', '\x00\x1f\x7f\x85\u202e',
         '\ufffe\uffff', 'a' * 10000, '流水', '\U0001f600']


def demand(fact, why):
    if not fact:
        raise Unlawful(why)


class Page(HTMLParser):
    """The parts of a page that count, as a browser reads it."""

    def __init__(self, text):
        super().__init__()
        self.open, self.lines, self.numbers, self.marks, self.lists = [], [], [], [], 0
        self.feed(text)
        self.close()
        demand(not self.open, f'{self.open} are not closed')

    def handle_starttag(self, tag, attrs):
        given = dict(attrs)
        demand(tag in ELEMENTS, f'there is an element {tag}')
        demand(set(given) <= ATTRIBUTES and len(given) == len(attrs), f'{tag} has the attributes {attrs}')
        demand(given.get('href', '#').startswith('#'), f'there is a link to {given.get("href")}')
        self.lists += tag == 'ol'
        if tag == 'li':
            demand(self.open[-1:] == ['ol'], f'an item is in {self.open}')
            self.lines.append('')
            self.numbers.append(given.get('id'))
        if tag == 'a':
            self.marks.append([given['href'], None])
        if tag == 'title' and 'svg' in self.open:
            demand(self.open[-1] == 'a', f'a title is in {self.open}')
            self.marks[-1][1] = ''
        self.open.append(tag)

    def handle_endtag(self, tag):
        demand(self.open and self.open.pop() == tag, f'{tag} is closed where it is not the innermost')

    def handle_data(self, data):
        if self.open[-1:] == ['li']:
            self.lines[-1] += data
        elif self.open[-1:] == ['title'] and 'svg' in self.open:
            self.marks[-1][1] += data


def judge(page, text, first=0, count=DRAWN):
    """Raises Unlawful if a page does not list the lines of a text, or if its marks are not those of the events from one
    on, each with its line. It is read by a parser of XML too, to which each element has to be closed."""
    try:
        xml.etree.ElementTree.fromstring(page)
    except xml.etree.ElementTree.ParseError as why:
        raise Unlawful(f'it is not well-formed: {why}') from why
    found = Page(page)
    demand(found.lists == 1, f'there are {found.lists} lists')
    demand(''.join(f'{line}\n' for line in found.lines) == text, 'its lines are not those of the replay')
    demand(found.numbers == [f'l{number}' for number in range(len(found.lines))], 'its lines are numbered wrong')
    for link, title in found.marks:
        demand(title == found.lines[int(link[2:])], f'the mark {link} says {title}')
    events = sum(line[0].isdigit() for line in found.lines)
    wanted = set(range(min(first, events), min(first + count, events)))
    drawn = {int(link[2:]) for link, _ in found.marks}
    demand(drawn == wanted, f'{sorted(drawn ^ wanted)[:9]} are drawn but not asked for, or missing')


def one_by_one(scenario):
    """The schedule that makes the calls of a scenario one after the other, client by client: each step along a machine,
    as long as that takes it."""
    machine, schedule = Machine(scenario), []

    def take(*event, most=len(scenario['records'])):
        taken = 0
        while taken < most and machine.refusal(event) is None:
            machine.take(event)
            schedule.append(list(event))
            taken += 1
        return taken

    for client, script in enumerate(scenario['clients']):
        for _ in script:
            ticket = len(machine.calls)
            if machine.limit == ticket:
                return schedule
            take('find', client, most=1)
            demand(take('enter', client) == 1, f'call {ticket} cannot enter alone')
            for word in ('claim', 'admit'):
                take(word)
            for word in ('load', 'store', 'release', 'finish'):
                take(word, ticket)
            demand(not machine.unfinished(), f'call {ticket} does not end alone')
    return schedule


def unlike_replay(program, name, text, *window):
    """What is wrong with the page of a scenario: without a schedule it is the page of its calls one after the other. A
    scenario that is refused is refused with the same line, and with the explanation of it."""
    replayed = called([program, 'replay'], text)
    is_without = replayed.returncode == 0 and not json.loads(text).get('schedule')
    if is_without:
        scenario = json.loads(text)
        given = json.dumps({**scenario, 'schedule': one_by_one(scenario)}).encode()
        replayed = called([program, 'replay'], given)
    options = [f'{option}={value}' for option, value in zip(('--from', '--count'), window)]
    drawn = called([program, 'draw', *options], text)
    if replayed.returncode:
        yield from unlike(name, drawn, replayed.returncode, replayed.stdout, explanation(program, text))
    elif drawn.returncode or drawn.stderr:
        yield f'{name}: the status is {drawn.returncode}, and on standard error came {drawn.stderr[:200]!r}'
    else:
        try:
            judge(drawn.stdout.decode(), replayed.stdout.decode(), *window)
            demand((WITHOUT_SCHEDULE in drawn.stdout.decode()) == is_without, 'it says the wrong thing of its schedule')
        except (Unlawful, ValueError, LookupError) as why:
            yield f'{name}: {why}'


def of_cases(program):
    """All cases of a replay, those that are refused too."""
    cases = [case for case in read_cases()[0] if case.words == [b'replay']]
    drawn = [case for case in cases if status_of(case.wanted()) == 0]
    if len(drawn) < 50 or len(drawn) == len(cases):
        yield f'there are {len(drawn)} replays among {len(cases)} cases'
    for case in cases:
        yield from unlike_replay(program, case.name, bytes_of(case.text))


def of_seeds(program):
    """Random scenarios; of some of them a window inside of the schedule too, before its end, at it and behind it."""
    for seed in range(SEEDS):
        scenario = scenario_of('replay', seed, SIZES['replay'])[0]
        text, events = text_of(scenario, seed).encode(), len(scenario.get('schedule', []))
        yield from unlike_replay(program, f'seed {seed}', text)
        for first in (FIRST, max(events - 5, 0), events, 1048576) if seed < 10 else ():
            yield from unlike_replay(program, f'seed {seed} from {first}', text, first, COUNT)


def of_no_schedule(program):
    """Random scenarios without a schedule; of some of them a window. No event of their pages is refused."""
    for seed in range(SEEDS // 3):
        scenario = scenario_of('run', seed, SIZES['run'])[0]
        scenario.pop('schedule', None)
        text = text_of(scenario, seed).encode()
        yield from unlike_replay(program, f'no schedule, seed {seed}', text)
        if seed < 10:
            yield from unlike_replay(program, f'no schedule, seed {seed} from {FIRST}', text, FIRST, COUNT)
        if b' refused ' in re.sub(b'<p>.*?</p>', b'', called([program, 'draw'], text).stdout):
            yield f'no schedule, seed {seed}: an event is refused'


def of_many_calls(program):
    """Calls that have more events than a schedule may have: as many as it may have are drawn."""
    calls, keys = 65536, [['write', 'fixed', record] for record in range(4)]
    scenario = {'version': 1, 'records': [0] * 4, 'clients': [[{'proc': 'p', 'args': []}] * 64] * 1024,
                'procs': [{'name': 'p', 'args': 0, 'keys': keys, 'body': [['set', 0, ['add', ['key', 0], 1]]]}]}
    # an entry, four of each of claims, loads, stores and releases, an admission and an end
    events = calls * (1 + 4 * 4 + 2)
    ran = called([program, 'draw'], json.dumps(scenario).encode())
    lines = re.findall(rb'<li id="l\d+">(\d+) ', ran.stdout)
    if events <= MOST_EVENTS or ran.returncode or len(lines) != MOST_EVENTS or lines[-1] != b'%d' % (MOST_EVENTS - 1):
        yield f'the status is {ran.returncode}, and the page of {events} events lists {len(lines)}'


def of_names(program):
    """No name of a procedure can break out of the markup."""
    for name in NAMES:
        scenario = {'version': 1, 'records': [5], 'clients': [[{'proc': name, 'args': []}]],
                    'procs': [{'name': name, 'args': 0, 'keys': [['write', 'fixed', 0]], 'body': []}],
                    'schedule': [['enter', 0], ['claim'], ['admit']]}
        yield from unlike_replay(program, repr(name[:50]), json.dumps(scenario).encode())


def of_large(program):
    """A page of many events is not much larger than what it draws and lists; nor is that of as many and as long lines
    as a scenario may have.

    In the list a line takes at most 23 bytes more than in the text. 1,048,576 events have lines of up to 40 bytes,
    65,536 of them 170 more with a reply of 8 numbers; 65,536 calls have up to 210 in the outcome, and as many records
    up to 61. That is 99 MB. A drawn event takes up to two kilobytes.
    """
    number, calls, events = 2**64 - 1, 65536, 1048576
    many = {'version': 1, 'records': [1], 'procs': [], 'clients': [], 'schedule': [['scan']] * 100000}
    schedule = []
    for ticket in range(calls):
        schedule += ['enter', 1023 - ticket // 64], ['admit'], ['finish', ticket]
    most = {'version': 1, 'records': [number] * 65536, 'clients': [[{'proc': 'p', 'args': []}] * 64] * 1024,
            'procs': [{'name': 'p', 'args': 0, 'keys': [], 'body': [['reply', number]] * 8}],
            'schedule': schedule + [['claim']] * (events - len(schedule))}
    for scenario, least, largest in (many, 4000000, 8000000), (most, 75000000, 150000000):
        text = json.dumps(scenario, separators=(',', ':')).encode()
        ran = called([program, 'draw', '--count', '3600'], text)
        if ran.returncode or not least < len(ran.stdout) < largest:
            yield (f'the status is {ran.returncode}, and the page of {len(scenario["schedule"])} events has '
                   f'{len(ran.stdout)} bytes')


def with_attributes(drawing):
    """A drawing whose elements also have as attributes the light colours that its style gives them. By these it is shown
    where variables of a style are not known, as by librsvg and Inkscape; elsewhere the style is stronger, dark or light."""
    style = drawing.partition('</style>')[0]
    light = dict(re.findall(r'(--\w+): (#\w+)', style.partition('@media')[0]))
    colours = {}
    for selectors, rule in re.findall(r'^((?:svg text|\.)[^{:]*) { (.*) }$', style, re.MULTILINE):
        for property, variable, word in re.findall(r'(fill|stroke): (?:var\((--\w+)\)|(\w+))', rule):
            for selector in selectors.split(', '):
                wanted = selector.rpartition('.')[2] if '.' in selector else 'text'
                colours.setdefault(wanted, {})[property] = light.get(variable) or word.replace('transparent', 'none')

    def element(found):
        name, classes = found.groups()
        given = dict(colours['text'] if name == 'text' else {})
        for word in (classes or '').split():
            given.update(colours.get(word, {}))
        return found[0] + ''.join(f' {property}="{colour}"' for property, colour in given.items())

    return re.sub(r'<(rect|path|text)(?: class="([^"]*)")?', element, drawing)


def picture(program):
    """The first drawing of the example's page, with attributes."""
    page = called([program, 'draw'], PICTURED.read_bytes()).stdout.decode()
    found = re.search('<svg.*?</svg>\n', page, re.DOTALL)
    return found and with_attributes(found[0])


def of_picture(program):
    if picture(program) != PICTURE.read_text(encoding='utf-8'):
        yield 'docs/replay.svg is not the drawing of its example; python3 tools/trial_pages.py makes it again'


def drawings(words, _):
    for trial in of_cases, of_seeds, of_no_schedule, of_many_calls, of_names, of_large, of_picture:
        yield f'pages {trial.__name__.replace("_", " ")}', trial(words.program)


if __name__ == '__main__':
    PICTURE.write_text(picture(sys.argv[1] if len(sys.argv) > 1 else TOP / 'crates/vll/out/vll'), encoding='utf-8')
