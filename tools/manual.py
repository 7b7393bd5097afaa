"""Makes the manual page of vll, and the completion of its command line in bash, from its help."""
import re
import subprocess
from typing import Dict, List, NamedTuple, Tuple

HEADING = re.compile(r'(Commands|Arguments|Options):')
ROW = re.compile(r'  +(\S.*?)(?: {2,}(\S.*))?')

# What no help text says: docs/SCENARIO.md has all of it.
STATUS = [
    ('0', 'The scenario was run, served, replayed, drawn or found valid, whatever its calls gave.'),
    ('1', 'Memory, threads, standard output or input were lacking; a line says which.'),
    ('2', 'The scenario or the command line was refused. Standard error says why.'),
]


class Help(NamedTuple):
    """A help text: what it is about, how the command is used, rows of words and what they mean by their heading, and
    what follows them."""
    about: str
    usage: str
    rows: Dict[str, List[Tuple[str, str]]]
    rest: List[str]

    def options(self):
        """Each option's long word, and whether a value follows it."""
        return [(word, '<' in left) for left, _ in self.rows.get('Options', []) for word in re.findall(r'--\w+', left)]


def read_help(text):
    about, _, rest = text.partition('Usage: ')
    usage, _, rest = rest.partition('\n')
    if not usage.startswith('vll'):
        raise ValueError(f'this is no help text of vll: {text[:80]!r}')
    rows, heading, lines = {}, None, rest.split('\n')
    while lines and (heading or not lines[0] or HEADING.fullmatch(lines[0])):
        line = lines.pop(0)
        begun, row = HEADING.fullmatch(line), ROW.fullmatch(line)
        if begun:
            heading = begun[1]
            rows[heading] = []
        elif row and heading:
            rows[heading].append((row[1], row[2] or ''))
        else:
            heading = None
    return Help(' '.join(about.split()), usage, rows, lines)


def help_of(program, *words):
    """The help of the program, or of one of its commands."""
    ran = subprocess.run([program, *words, '--help'], stdin=subprocess.DEVNULL, capture_output=True, check=True)
    return read_help(ran.stdout.decode())


def commands_of(program):
    """The help of each command by its name, without that of the help itself."""
    return {name: help_of(program, name) for name, _ in help_of(program).rows['Commands'] if name != 'help'}


def version_of(program):
    """The version, as in: vll 0.9.0."""
    ran = subprocess.run([program, '--version'], stdin=subprocess.DEVNULL, capture_output=True, check=True)
    return ran.stdout.decode().strip()


# The manual page, in the language of man(7).

def roff(text):
    """A text whose characters mean nothing else to roff."""
    text = text.replace('\\', '\\e').replace('-', '\\-')
    return f'\\&{text}' if text.startswith(('.', "'")) else text


def bold(text):
    return f'\\fB{roff(text)}\\fR'


def prose(lines):
    """Paragraphs; indented lines stay as they are."""
    was_indented = False
    for line in lines:
        is_indented = line.startswith('  ')
        if is_indented != was_indented:
            yield '.IP\n.nf' if is_indented else '.fi\n.PP'
        was_indented = is_indented
        yield roff(line[2:]) if is_indented else roff(line) if line else '.PP'
    if was_indented:
        yield '.fi'


def table(rows):
    for words, what in rows:
        yield f'.TP\n{bold(words)}\n{roff(what)}'


def section(name, usage, command):
    yield f'.SS {bold(usage)}\n{roff(command.about)}.'
    for heading in 'Arguments', 'Options':
        yield from table(row for row in command.rows.get(heading, []) if not row[0].startswith('-h'))
    # two words of a name: the help of the program itself has an example of each command
    if name and any(command.rest):
        yield '.PP'
        yield from prose(without_ends(command.rest))


def without_ends(lines):
    """Lines from the first to the last that is not empty, one between paragraphs."""
    return '\n'.join(lines).strip('\n').split('\n')


def page(program):
    whole, commands = help_of(program), commands_of(program)
    about = whole.about[0].lower() + whole.about[1:]
    lines = [f'.TH VLL 1 "" "{version_of(program)}" "User Commands"',
             f'.SH NAME\nvll \\- {roff(about)}', '.SH SYNOPSIS\n.nf']
    lines += [bold(command.usage) for command in commands.values()]
    lines += ['.fi', '.SH COMMANDS']
    for name, command in commands.items():
        lines += section(name, command.usage, command)
    lines += ['.SH OPTIONS', *table(whole.rows['Options']), '.SH EXIT STATUS', *table(STATUS)]
    return '\n'.join(line for line in lines if line) + '\n'


# The completion.

COMPLETION = '''# Completes the command line of vll in bash. It is made from the program's help.
_vll() {
  local word=${COMP_WORDS[COMP_CWORD]} words='' files=''
  COMPREPLY=()
  if ((COMP_CWORD == 1)); then
    words='%(commands)s'
  else
    case ${COMP_WORDS[COMP_CWORD - 1]} in
      %(valued)s) return ;;
    esac
    case ${COMP_WORDS[1]} in
%(cases)s
    esac
  fi
  if [[ $word == -* || -z $files ]]; then
    mapfile -t COMPREPLY < <(compgen -W "$words" -- "$word")
  else
    mapfile -t COMPREPLY < <(compgen -f -- "$word")
  fi
}
complete -o filenames -F _vll vll
'''


def completion(program):
    whole, commands = help_of(program), commands_of(program)
    valued, cases = set(), []
    for name, command in commands.items():
        options = command.options()
        valued |= {word for word, has_value in options if has_value}
        files = ' files=yes' if command.rows.get('Arguments') else ''
        cases.append(f"      {name}) words='{' '.join(word for word, _ in options)}'{files} ;;")
    cases.append(f"      help) words='{' '.join(commands)}' ;;")
    words = [*commands, 'help', *(word for word, _ in whole.options())]
    return COMPLETION % {'commands': ' '.join(words), 'valued': ' | '.join(sorted(valued)), 'cases': '\n'.join(cases)}
