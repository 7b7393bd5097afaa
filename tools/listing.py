#!/usr/bin/env python3
"""Prints what crates promise or define, with the comments on it.

    python3 tools/listing.py contracts [CRATE ..]      the public functions of libraries, with the first sentence of
                                                       their comments and the names of the clauses
    python3 tools/listing.py definitions [CRATE ..]    the definitions of crates, with the comments that stand over them
    python3 tools/listing.py headline                  by the sentences of docs/HEADLINE.md the definitions that each
                                                       needs beside those above it, those that others cite first
    python3 tools/listing.py crates [CRATE ..]         what crates are for, from the lowest to the highest
    python3 tools/listing.py numbers                   how much is proved, and how much has to be read to believe it
    python3 tools/listing.py allocating [CRATE ..]     the public functions that can return that memory lacks
    python3 tools/listing.py waiting [CRATE ..]        the public functions that may wait for another thread

If no crate is named, it prints those of all, but no functions of libraries that serve tests and timings alone. A
function is public if src/lib.rt exports it, or the type or the trait that has it. One that a type has by a trait is
listed if it has a comment or a clause of its own. "unnamed" stands for a clause without a name. The definitions of
specs/Private/ are left out, since no contract of an exported item cites them. Lines are counted without comments and
empty ones, in the crates of libraries and programs, not in those of tests.
"""
import re
import sys
from itertools import groupby, takewhile

from cases import TOP
from sources import COMMENT, SENTENCES, Sources, Specs, functions_of

CRATE = re.compile(r'^(\w+):', re.MULTILINE)
LEFT_OUT = re.compile(r'\w+_tests|vll_test_procedures')
MODULE = re.compile(r'^mod (\w+);', re.MULTILINE)
EXPORT = re.compile(r'^pub use (\w+)::(?:\w+::)*(?:\{([^}]*)\}|(\w+));', re.MULTILINE)
# How a definition is read, which comes before the headline's.
NOTATION = '''\
- `≡` is "is the same as", `×` between statements "and", `A ⊎ B` "or", `¬ A` "not A".
- `(x : A) × P` is "there is an x in A with P", `(x : A) → P` "for each x in A, P"; `{A : Type 0} →` is an argument that
  is not written. `⊥` never holds, `Unit {0}` always.
- `f x y` is f of x and y, `λ x. e` the function that gives e for x, `s.f` the field f of s, `record s { f = v }` is s
  with v in its field f.
- `[]` is the empty list, `x ∷ xs` a list with x in front, `xs ++ ys` one list after another. `slice_get xs i` is the
  item at i, if any; `slice_index xs i` the number at i, 0 past the end; `slice_set xs i v` the list with v at i.
- `ℕ` are the numbers from 0. `Some x`, `None`, `Ok x`, `Err e`, `p.0` and `p.1` are as in Rust.
- `elim x [ p ↦ e .. ]` is e, if x has the form p. `record R .. : Type 0 where` is a value with the fields below, or a
  statement that holds if there are such values and facts.
- `module _ (place : ℕ → ℕ) (bits : ℕ) where`: each definition in it takes these first.
- In `Add' p a q b`, `If' e m first n second` and `Repeat' turns m list`, no definition reads `p`, `q`, `m` and `n`.
- `Rattle.vll_NAME.specs.FILE` is `specs/FILE.antt` of vll_NAME; with `specs.declared` a path leads to a type of the
  code, and any other to the kit.
- Definitions see what a value shows, not its private fields. `Claims` shows a list of claims, and most types a record
  of their name, as `Session` a `SessionShown`. `Checked` shows an `Entry`, `Library` a `Catalog`, `Queue` a `Queued`,
  `Machine` and `Core` a `Shown`, `Done` and `Released` a `DoneShown`, and a `Scenario` its `Setup`. `Items`, `Boxed` and
  `Text` show what they hold.
'''
SENTENCE = re.compile(r'.*?[.!?](?= |$)')


def table(heads, rows):
    """The lines of a table."""
    cells = ([cell.replace('|', '\\|') for cell in row] for row in rows)
    return [f'| {" | ".join(row)} |' for row in (heads, ['---'] * len(heads), *cells)]


def marked(names):
    return ', '.join(f'`{name}`' if name else 'unnamed' for name in names)


def first_sentence(comment):
    text = ' '.join(takewhile(bool, comment))
    found = SENTENCE.match(text)
    return found[0] if found else text


def contracts(crates):
    """For each library its heading, what it is for, and a row for each of its functions, file by file."""
    sources = Sources(TOP)
    for crate in libraries(sources, crates):
        lib = sources.files[f'{crate}/src/lib.rt']
        rows = [(marked([function.name]), first_sentence(function.comment), marked(function.requires),
                 marked(function.ensures), marked([file[len(crate) + 1:]]))
                for file, function in public_functions(sources, crate)]
        heads = ['Function', 'Comment', 'Asks', 'Ensures', 'File']
        yield crate, [first_sentence(purpose(lib)), '', *table(heads, rows)]


def libraries(sources, crates):
    """Those of these crates that are libraries of the program."""
    return [crate for crate in crates if f'{crate}/src/lib.rt' in sources.files and not LEFT_OUT.fullmatch(crate)]


def purpose(lines):
    """The first lines of a crate, which say what it is for."""
    return [line[3:].strip() for line in takewhile(lambda line: line.startswith('//!'), lines)]


def purposes(crates):
    """For each crate the first paragraph about it."""
    files = Sources(TOP).files
    for crate in crates:
        lines = files.get(f'{crate}/src/lib.rt') or files[f'{crate}/src/main.rt']
        yield crate, [' '.join(takewhile(bool, purpose(lines)))]


def public_functions(sources, crate):
    """The public functions of a library, each behind its file."""
    text = '\n'.join(sources.files[f'{crate}/src/lib.rt'])
    exports = {name for module, many, one in EXPORT.findall(text) if module in MODULE.findall(text)
               for name in re.findall(r'\w+', many or one)}
    files = [file for file in sources.files if file.startswith(f'{crate}/src/')]
    return [(file, function) for file in sorted(files, key=lambda file: file[:-len('.rt')])
            for function in functions_of(sources.files[file]) if is_listed(function, exports)]


def that_allocate(sources, crates):
    """Each public function of the program's libraries that by its signature can report lack of memory, as its crate and
    its name. A trait's function stands for those of the types that have it."""
    faults, keepers = sources.types_with('NoMemory') | {'NoMemory'}, sources.types_with(r'\w+: Global')
    return {(crate, function.name) for crate in libraries(sources, crates)
            for _, function in public_functions(sources, crate) if function.can_lack_memory(faults, keepers)}


def that_wait(sources, crates):
    """Each public function of the program's libraries that is given what may wait, as its crate and its name."""
    return {(crate, function.name) for crate in libraries(sources, crates)
            for _, function in public_functions(sources, crate)
            if any(re.search(r'\bWait\b', line) for line in function.signature)}



def by_crate(found, crates):
    """A section for each crate with functions among these."""
    for crate in crates:
        names = sorted(name for of, name in found if of == crate)
        if names:
            yield crate, [marked(names)]


def allocating(crates):
    return by_crate(that_allocate(Sources(TOP), crates), crates)


def waiting(crates):
    return by_crate(that_wait(Sources(TOP), crates), crates)


def is_listed(function, exports):
    has_own = function.comment or function.requires or function.ensures
    return function.name.partition('::')[0] in exports and (function.is_public or function.is_of_trait and has_own)


def definitions(crates):
    """For each crate what its files are about, the table of its definitions, and those that have no comment."""
    specs = Specs(Sources(TOP))
    for crate in crates:
        listed = TOP / 'crates' / crate / 'specs/Lib.antt'
        files = modules_of(listed)
        about, rows, bare = [], [], []
        for file in files:
            path = f'`specs/{file.replace(".", "/")}.antt`'
            about.append(f'- {path}: {specs.heads[crate, file]}')
            comments = {key[2]: text for key, text in specs.comments.items() if key[:2] == (crate, file)}
            for text, names in groupby(comments, comments.get):
                if text:
                    rows.append((marked(names), text, path))
            without = [name for name, text in comments.items() if not text]
            bare += [f'{marked(without)} ({path})'] if without else []
        if files:
            end = ['', f'Without a comment: {"; ".join(bare)}.'] if bare else []
            yield crate, [*about, '', *table(['Definition', 'Says', 'File'], rows), *end]


def headline(crates):
    """The notation, and for each group of sentences the table of the definitions that they need."""
    specs, known = Specs(Sources(TOP)), set()
    yield 'How to read a definition', NOTATION.splitlines()
    for sentences, roots in SENTENCES.items():
        new = specs.reached_from(*roots) - known
        known |= new
        rows = []
        for crate in crates:
            for file in modules_of(TOP / 'crates' / crate / 'specs/Lib.antt'):
                here = (key for key in specs.comments if key[:2] == (crate, file) and key in new)
                comments = {key: specs.comments[key] for key in here}
                rows += [(marked(key[2] for key in keys), text, f'`{crate}/specs/{file.replace(".", "/")}.antt`')
                         for text, keys in groupby(comments, comments.get)]
        yield f'{sentences}: {marked(roots)}', table(['Definition', 'Says', 'File'], rows)


def counts():
    """How many lines and things there are of each kind, by the kind's words."""
    folders = [TOP / 'crates' / crate for crate in all_crates() if not LEFT_OUT.fullmatch(crate)]
    files = {kind: [path for folder in folders for path in folder.glob(f'{kind}/**/*.*t')]
             for kind in ('src', 'specs', 'specs/Headline', 'proofs')}
    lines = {kind: sum(not COMMENT.match(line) for path in paths for line in path.read_text().splitlines())
             for kind, paths in files.items()}
    return {
        'lines of code with contracts': lines['src'],
        'lines of lemmas and proofs': lines['proofs'],
        'edits that must fail': len(list((TOP / 'crates').glob('*/must-fail/*.edit'))),
        'lines of definitions in all': lines['specs'],
        'lines of definitions that the theorem needs': lines['specs/Headline'],
    }


def numbers(_):
    yield 'vll', table(['What', 'Number'], [(what, f'{count:,}') for what, count in counts().items()])


def modules_of(index):
    """The files that a list of modules names in reading order, but for Private, with those of Headline in its place."""
    found = []
    for name in re.findall(r'^pub mod (\w+)', index.read_text(), re.M) if index.exists() else []:
        if name == 'Headline':
            found += [f'{name}.{file}' for file in modules_of(index.with_name(f'{name}.antt'))]
        elif name != 'Private':
            found.append(name)
    return found


def all_crates():
    return CRATE.findall((TOP / 'crates.txt').read_text())


def main(words):
    crates = all_crates()
    kinds = {'contracts': contracts, 'definitions': definitions, 'headline': headline, 'numbers': numbers,
             'allocating': allocating, 'waiting': waiting, 'crates': purposes}
    wanted = words[1:] or crates
    sections = list(kinds[words[0]](wanted)) if words and words[0] in kinds and set(wanted) <= set(crates) else []
    if not sections:
        print(f'usage: python3 tools/listing.py {"|".join(kinds)} [CRATE ..]; nothing to list', file=sys.stderr)
        return 2
    print('\n\n'.join('\n'.join([f'## {crate}', '', *lines]) for crate, lines in sections))
    return 0


if __name__ == '__main__':
    sys.exit(main(sys.argv[1:]))
