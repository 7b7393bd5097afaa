"""What the sources declare: the definitions of specs/ with their comments; the types, functions and clauses of src/."""
import re
from functools import lru_cache
from typing import List, NamedTuple

# A declaration of a definition, behind the words that may stand before its name.
DECLARATION = re.compile(
    r'\s*(?:(?:abbrev|unfoldable|opaque|pub|record|data) )+(?!(?:mod|mutual)\b)([A-Za-z_]\w*|◌\S+◌)')
USE = re.compile(r'use Rattle\.(\w+)\.specs\.([\w.]+)\.\{(.*)\}')
ITEM = re.compile(r'\s*(?:pub(?:\(\w+\))? )?(?:struct|enum|trait|const|type|fn) (\w+)')
MEMBER = re.compile(r'    (?:(?:pub(?:\(\w+\))? )?([a-z_]\w*):|([A-Z]\w*)(?:\(.*\)| \{.*)?,?$)')
FUNCTION = re.compile(r'(\s*)(pub )?(?:pub\(\w+\) )?(?:const )?fn (\w+)')
TYPE = re.compile(r'(?:pub(?:\(\w+\))? )?(?:struct|enum) (\w+)')
TRAIT = re.compile(r'(?:pub )?trait (\w+)')
CLAUSE = re.compile(r'\s*(ensures|requires)\b\s*(\w*)')
COMMENT = re.compile(r'\s*(?:--|//|$)')


def self_type(head):
    """The type of an `impl`, from what stands behind that word."""
    depth, end = 0, 0
    if head.startswith('<'):
        for end, letter in enumerate(head):
            depth += (letter == '<') - (letter == '>' and head[end - 1] not in '-=')
            if depth == 0:
                break
        head = head[end + 1:]
    found = re.match(r'[&\s]*(\w+)', re.split(r' for ', head)[-1])
    return found[1] if found else ''


class Function(NamedTuple):
    """A function, as its head tells it: its name, as `Claims::add`; whether it is `pub` or one of a trait; whether an
    `impl` of a trait has it; the `///` lines; the lines of its signature; and the names of its clauses in order, an
    empty one if it has none."""
    name: str
    is_public: bool
    is_of_trait: bool
    comment: List[str]
    signature: List[str]
    requires: List[str]
    ensures: List[str]

    def can_lack_memory(self, faults, keepers):
        """Its signature lets it return that memory lacks: it is given an allocator or answers `AllocError`; or its error
        is one of these, and it grows a text or a list, or has one of these types that keep an allocator."""
        takes, _, gives = ' '.join(self.signature).partition(' -> ')
        takes, gives = set(re.findall(r'\w+', takes)), set(re.findall(r'\w+', gives))
        grows = takes & {'String', 'Vec'} or self.name.partition('::')[0] in keepers
        return 'Result' in gives and bool('Global' in takes or 'AllocError' in gives or grows and gives & faults)


class Sources:
    """The files of all crates. A file is named by its crate and its path in it, as `vll_sca/specs/Scan.antt`."""

    def __init__(self, top):
        self.files = {}
        for path in sorted([*top.glob('crates/*/specs/**/*.antt'), *top.glob('crates/*/src/**/*.rt')]):
            self.files[str(path.relative_to(top / 'crates'))] = path.read_text().splitlines()

    @lru_cache(maxsize=None)
    def names_of(self, file):
        """What a file declares, with the fields and variants of its types."""
        kinds = (DECLARATION,) if file.endswith('.antt') else (ITEM, MEMBER)
        found = (kind.match(line) for line in self.files.get(file, ()) for kind in kinds)
        return {name for each in found if each for name in each.groups() if name}

    @lru_cache(maxsize=None)
    def names(self, crate):
        """What a crate declares, or all of them, with the crates' own names."""
        inside = [file for file in self.files if crate in (None, file.split('/')[0])]
        return {name for file in inside for name in (*self.names_of(file), file.split('/')[0])}

    @lru_cache(maxsize=None)
    def functions(self, crate):
        """The names of the clauses of each function of a crate, or of all, by `Type::name` or by `name`."""
        found = {}
        for file, lines in self.files.items():
            if file.endswith('.rt') and crate in (None, file.split('/')[0]):
                for function in functions_of(lines):
                    found.setdefault(function.name, set()).update(function.requires + function.ensures)
        return found

    @lru_cache(maxsize=None)
    def types_with(self, member):
        """The types that have this line as a field or a variant."""
        found, name = set(), ''
        for file, lines in self.files.items():
            for line in lines if file.endswith('.rt') else ():
                declared = TYPE.match(line)
                name = declared[1] if declared else name
                if re.fullmatch(f'    {member},', line):
                    found.add(name)
        return found

    @lru_cache(maxsize=None)
    def is_type(self, name):
        return any(function.startswith(f'{name}::') for function in self.functions(None))

    def has_lines(self, wanted):
        """Whether a file has these lines one after the other, apart from comments, empty lines and indents."""
        return bool(wanted) and any(lines[at:at + len(wanted)] == wanted for lines in self.bare()
                                    for at, line in enumerate(lines) if line == wanted[0])

    @lru_cache(maxsize=None)
    def bare(self):
        """The lines of each file without comments, empty lines and the space before each."""
        return [[line.strip() for line in lines if not COMMENT.match(line)] for lines in self.files.values()]


def functions_of(lines):
    """Each function of a file."""
    found_all, group, of, comment, head = [], '', '', [], None
    for line in lines:
        words = line.strip()
        if line.startswith('impl'):
            group, of = self_type(line[4:].strip()), 'impl for' if ' for ' in line else 'impl'
        elif TRAIT.match(line):
            group, of = TRAIT.match(line)[1], 'trait'
        elif line.startswith('}'):
            group, of = '', ''
        found = FUNCTION.match(line)
        clause = CLAUSE.match(line)
        if found:
            name = f'{group}::{found[3]}' if group and found[1] else found[3]
            head = Function(name, bool(found[2]) or of == 'trait', of == 'impl for', comment, [], [], [])
            found_all.append(head)
        if head and clause:
            getattr(head, clause[1]).append(clause[2])
        elif head and not COMMENT.match(line) and not head.requires and not head.ensures:
            head.signature.append(words)
        if words == '{' or words.endswith((' {', '{}')):
            head = None
        if words.startswith('///'):
            comment = [*comment, words[3:].strip()]
        elif not words.startswith('#['):
            comment = []
    return found_all


def comments_over(lines):
    """The comment that ends right above a line, by the number of that line from 0."""
    found, above = {}, []
    for number, line in enumerate(lines):
        words = line.strip()
        if words.startswith('--'):
            above.append(words[2:].strip())
        elif above:
            found[number] = ' '.join(above)
            above = []
    return found


# By the sentences of the theorem in docs/HEADLINE.md the definitions that they are about. What these reach, and nothing
# else, stands in the folders specs/Headline.
SENTENCES = {
    'Sentences 1 to 4': ['Serves'],
    'Sentence 5': ['open_in', 'claims_on', 'pair_word_of', 'pair_word_of_record'],
    'Sentence 6': ['NewsOrdersEntries'],
}


class Specs:
    """The definitions of specs/, the comment over each, and which others each one cites."""

    def __init__(self, sources):
        self.imports = {}
        self.texts = {}
        # The first comment of a file, and that over a definition or over its group. It is empty if there is none.
        self.heads = {}
        self.comments = {}
        for name, lines in sources.files.items():
            if name.endswith('.antt'):
                crate, _, *inside = name[:-len('.antt')].split('/')
                self.read((crate, '.'.join(inside)), lines)

    def read(self, file, lines):
        self.imports[file] = {}
        over = comments_over(lines)
        self.heads[file] = next(iter(over.values()), '')
        name, group, over_group = None, -1, ''
        for number, line in enumerate(lines):
            words = line.strip()
            indent = len(line) - len(line.lstrip())
            if not words or words.startswith('--'):
                continue
            if words.startswith('use '):
                self.import_all(file, words)
                continue
            if group >= 0 and indent <= group:
                group = -1
            if re.match(r'(?:abbrev mutual|module)\b', words):
                group, name, over_group = indent, None, over.get(number, '')
                continue
            if indent == group + 2 if group >= 0 else indent == 0:
                name = self.name_at(file, words, name)
                if DECLARATION.match(words):
                    self.comments[(*file, name)] = over.get(number) or (over_group if group >= 0 else '')
            if name:
                self.texts.setdefault((*file, name), []).append(words)

    def import_all(self, file, words):
        found = USE.fullmatch(words)
        for each in found[3].split(',') if found else ():
            name, _, alias = each.strip().partition(' as ')
            self.imports[file][alias or name] = (found[1], found[2], name)

    def name_at(self, file, words, name):
        """The definition to which a line at the outermost place belongs, if the last one was `name`."""
        found = DECLARATION.match(words)
        if found:
            return found[1]
        first = re.match(r'[A-Za-z_]\w*', words)
        return first[0] if first and (*file, first[0]) in self.texts else name

    def cited_by(self, key):
        crate, inside, name = key
        text = re.sub(r'"[^"]*"', '', ' '.join(self.texts[key]))
        for word in set(re.findall(r"(?<![\w.])[A-Za-z_][\w']*", text)) - {name}:
            at = (crate, inside, word)
            at = at if at in self.texts else self.imports[crate, inside].get(word)
            if at in self.texts:
                yield at

    def reached_from(self, *roots):
        """What definitions of these names cite, what that cites, and so on, with these: crate, file and name of each."""
        left = [key for key in self.texts if key[2] in roots]
        reached = set(left)
        while left:
            for key in self.cited_by(left.pop()):
                if key not in reached:
                    reached.add(key)
                    left.append(key)
        return reached
