#!/usr/bin/env python3
"""Compares the pages of the repository with its sources, and prints a line for each thing that is not so.

    python3 tools/check_docs.py

- HEADLINE: what it quotes stands so in a source, and each name is declared somewhere. What its sentences are about
  reaches just what is in the folders specs/Headline, as many definitions as it says.
- PROMISES, ALGORITHM: a function stands in the crate that is named behind it, and the clauses of a row at one of its
  functions. PROMISES has the number of the public functions that can return that memory lacks.
- README.md: its scenario is scenarios/transfer.json, its figures are those of docs/speed.csv, as the drawings are, and
  what it counts of the sources is right within a tenth.
  examples/README.md: a block below a command has what is printed, behind the events of a schedule.
- every page: a function that is named with its type is there, a link leads to a file and to a heading, and an outcome
  that stands below a command is the one beside the scenario.

The last line tells how much was looked at. The status is 0 if all is so, and else 1.
"""
import json
import re
import sys
from itertools import zip_longest

from cases import TOP, read_cases
from figures.speed import HEAD, rows_below, with_rows
from listing import all_crates, counts, that_allocate
from sources import SENTENCES, Sources, Specs

NAME = re.compile(r'`([^`]+)`')
HEADING = re.compile(r'#+ +(.*)')
# Names with the crate that has them behind them: `Queue::admit` (vll_core), or `delta`, `granted` (vll_record).
IN_CRATE = re.compile(r'((?:`[^`]+`(?:, | and )?)+) \((vll\w*)\)')
COMMAND = re.compile(r'`\./vll (?:run|replay)[^`]* ([\w./-]+)\.json`[^`]* prints$')
# How many public functions allocate, and which, up to the end of the sentence.
ALLOCATE = re.compile(r'\bonly (\d+) public functions allocate\b')
EXAMPLE = re.compile(r'\./vll (.*) examples/(\w+)\.json$')

# Words of HEADLINE.md that stand in code marks and are no names of this repository.
OTHERS = set('Appends Ordering SeqCst atomic_table contents'.split())


class Page:
    """A page: its lines outside of code, its blocks of code, and its tables."""

    def __init__(self, path, name, text):
        self.path = path
        self.name = name
        self.text = text
        # of a line outside: its number, and itself
        self.outside = []
        # the words of each heading
        self.headings = []
        # of a block: its number, the last line of text above it, and its lines
        self.blocks = []
        last = ''
        block = None
        for number, line in enumerate(text.splitlines(), 1):
            found = HEADING.fullmatch(line)
            if line.startswith('```'):
                block = None if block is not None else []
                if block is not None:
                    self.blocks.append((number, last, block))
            elif block is not None:
                block.append(line)
            elif found:
                self.headings.append(found[1])
            else:
                self.outside.append((number, line))
                last = line.strip() or last

    def rows(self):
        """Each row of a table: its number, and its cells by the words of the table's head."""
        head = None
        for number, line in self.outside:
            if not line.startswith('|'):
                head = None
                continue
            cells = [cell.strip() for cell in re.split(r'(?<!\\)\|', line.strip().strip('|'))]
            if head is None:
                head = cells
            elif not set(line) <= set('|-: '):
                yield number, dict(zip(head, cells))

    def anchors(self):
        """What a link can name after '#'."""
        words = [re.sub(r'[^\w\- ]', '', heading.lower()).replace(' ', '-') for heading in self.headings]
        return {f'{word}-{words[:at].count(word)}' if word in words[:at] else word for at, word in enumerate(words)}


class Checks:
    """What was looked at, and what is not so."""

    def __init__(self, sources, specs):
        self.sources = sources
        self.specs = specs
        self.looked = 0
        self.wrong = []

    def look(self, page, number, is_so, words):
        self.looked += 1
        if not is_so:
            self.wrong.append(f'{page.name}:{number}: {words}')

    def headline(self, page):
        for number, line in page.outside:
            for name in names_in(line):
                is_so = name in OTHERS or name in self.sources.names(None)
                self.look(page, number, is_so, f'{name} is not declared in any crate')
        for sentences, roots in SENTENCES.items():
            for root in roots:
                self.look(page, 1, f'`{root}`' in page.text, f'{root} of {sentences} is not named')
        reached = self.specs.reached_from(*(root for roots in SENTENCES.values() for root in roots))
        apart = {key for key in self.specs.texts if key[1].startswith('Headline.')}
        for key in sorted(apart | reached):
            is_so = key in apart and key in reached
            self.look(page, 1, is_so, f'{".".join(key)} is not both needed and in a folder specs/Headline')
        self.look(page, 1, f'{len(reached)} definitions' in page.text, f'the headline needs {len(reached)} definitions')

    def promises(self, page):
        rows = [(number, cells) for number, cells in page.rows() if 'Function' in cells]
        self.look(page, 1, rows, 'no clause is looked at')
        for number, cells in rows:
            functions = names_with_crates(cells['Function'])
            names = [name for name, _ in functions]
            theirs = set()
            for name in NAME.findall(cells['Function']):
                self.look(page, number, name in names, f'no crate follows {name}')
            for name, crate in functions:
                clauses = self.sources.functions(crate).get(name)
                self.look(page, number, clauses is not None, f'{name} is no function of {crate}')
                theirs |= clauses or set()
            for clause in NAME.findall(cells.get('Clauses', '')):
                self.look(page, number, clause in theirs, f'{clause} is no clause of {", ".join(names)}')
            for name in NAME.findall(cells.get('Over the definitions', '')):
                self.look(page, number, name in self.sources.names(None), f'{name} is not declared in any crate')

    def memory(self, page):
        count = len(that_allocate(self.sources, all_crates()))
        is_so = ALLOCATE.findall(page.text) == [str(count)]
        self.look(page, 1, is_so, f'it does not say once that only {count} public functions allocate')

    def algorithm(self, page):
        for number, line in page.outside:
            for name, crate in names_with_crates(line):
                is_so = name in self.sources.functions(crate) or name in self.sources.names(crate)
                self.look(page, number, is_so, f'{name} is not in {crate}')

    def quotations(self, page):
        for number, _, block in page.blocks:
            for piece in '\n'.join(block).split('\n\n'):
                is_so = self.sources.has_lines([line.strip() for line in piece.splitlines()])
                self.look(page, number, is_so, f'no source has: {piece.strip().splitlines()[0]}')

    def readme(self, page):
        scenario = (TOP / 'scenarios/transfer.json').read_text()
        self.look(page, 1, f'```json\n{scenario}```\n' in page.text, 'scenarios/transfer.json is not quoted here')
        for words, count in counts().items():
            found = re.search(rf'([\d,]+) {words}', page.text)
            is_so = found and abs(int(found[1].replace(',', '')) - count) * 10 <= count
            self.look(page, 1, is_so, f'there are {count} {words}')
        figures = (TOP / 'docs/speed.csv').read_text()
        self.look(page, 1, with_rows(page.text, figures) == page.text, 'these are not the figures of docs/speed.csv')
        for name in 'speed', 'sweep':
            *_, commit, _, date = rows_below(HEAD, (TOP / f'docs/{name}.csv').read_text())[-1]
            is_so = f'commit {commit}, {date}' in (TOP / f'docs/{name}.svg').read_text()
            self.look(page, 1, is_so, f'docs/{name}.svg was not drawn from docs/{name}.csv')

    def examples(self, page):
        cases = {case.name: case for case in read_cases()[0] if case.place.startswith('examples/')}
        for (number, _, block), (_, _, shown) in zip(page.blocks, page.blocks[1:]):
            found = EXAMPLE.match(block[0]) if len(block) == 1 else None
            case = found and cases.get(found[2])
            if case and not case.is_judged and not shown[0].startswith('./vll '):
                self.look(page, number, found[1].encode().split() == case.words, 'these are not the words of the case')
                schedule = json.loads((TOP / f'{case.place}.json').read_text()).get('schedule', [])
                events = [json.dumps(event, separators=(',', ':')) for event in schedule]
                width = max(map(len, events), default=-3) + 3
                lines = zip_longest(events, case.wanted().decode().splitlines(), fillvalue='')
                self.look(page, number, shown == [event.ljust(width) + line for event, line in lines],
                          f'this is not what is printed of {case.name}')

    def functions(self, page):
        for number, line in page.outside:
            for name in NAME.findall(line):
                found = re.fullmatch(r'(?:vll_\w+::)?([A-Z]\w*)::([a-z]\w*)', name)
                if found and self.sources.is_type(found[1]):
                    is_so = f'{found[1]}::{found[2]}' in self.sources.functions(None)
                    self.look(page, number, is_so, f'{found[1]} has no function {found[2]}')

    def links(self, page, anchors):
        for number, line in page.outside:
            for target in re.findall(r'\]\((?!\w+:)([^)\s]+)\)', line):
                file, _, anchor = target.partition('#')
                path = (page.path.parent / file).resolve() if file else page.path
                self.look(page, number, path.exists(), f'there is no {file}')
                if anchor and path in anchors:
                    self.look(page, number, anchor in anchors[path], f'there is no heading {target}')

    def outcomes(self, page):
        for number, text, block in page.blocks:
            found = COMMAND.search(text)
            if found:
                wanted = TOP / f'{found[1]}.out'
                is_so = wanted.exists() and wanted.read_text() == '\n'.join(block) + '\n'
                self.look(page, number, is_so, f'{found[1]}.out is not what is quoted here')


def names_in(text):
    """The words in code marks that are names: letters, digits and '_', of more than one letter."""
    return [name for name in NAME.findall(text) if re.fullmatch(r'[A-Za-z_]\w+', name)]


def names_with_crates(text):
    """Each name that a crate stands behind, with the crate."""
    return [(name, crate) for names, crate in IN_CRATE.findall(text) for name in NAME.findall(names)]



def texts_of_pages():
    """The texts of the pages, by their names."""
    paths = [path for folder in ('.', 'docs', 'examples', 'scenarios')
             for path in sorted((TOP / folder).glob('*.md'))]
    return {str(path.relative_to(TOP)): path.read_text() for path in paths}


def check(texts, sources, specs):
    """Compares pages of these texts with these sources."""
    checks = Checks(sources, specs)
    pages = {name: Page(TOP / name, name, text) for name, text in texts.items()}
    anchors = {page.path: page.anchors() for page in pages.values()}
    for page in pages.values():
        checks.functions(page)
        checks.links(page, anchors)
        checks.outcomes(page)
    for name, look in [('docs/ALGORITHM.md', checks.algorithm), ('docs/HEADLINE.md', checks.headline),
                       ('docs/HEADLINE.md', checks.quotations), ('docs/PROMISES.md', checks.promises),
                       ('docs/PROMISES.md', checks.memory), ('README.md', checks.readme),
                       ('examples/README.md', checks.examples)]:
        looked = checks.looked
        look(pages[name])
        if checks.looked == looked:
            checks.wrong.append(f'{name}: there is nothing to look at')
    return checks


def main():
    sources = Sources(TOP)
    checks = check(texts_of_pages(), sources, Specs(sources))
    for line in checks.wrong:
        print(line)
    print(f'docs: {checks.looked} things checked, {len(checks.wrong)} wrong')
    return 1 if checks.wrong else 0


if __name__ == '__main__':
    sys.exit(main())
