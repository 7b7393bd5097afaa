"""The language of texts, and the limits of a scenario, which docs/SCENARIO.md has.

scenario   = { "record" record { "," record } | "code" code { "," code } | procedure | client | option }
record     = NAME [ "[" NUMBER "]" ] [ "=" ( constant | "[" constant { "," constant } "]" ) ]
code       = NAME "=" NUMBER
constant   = NUMBER | place
place      = NAME [ "[" NUMBER "]" ]

procedure  = "proc" title "(" [ argument { "," argument } ] ")" [ "using" key { "," key } ] block
title      = NAME | TEXT
argument   = [ "read" | "write" ] NAME
key        = ( "read" | "write" ) [ "through" ] place [ "as" NAME ]
block      = "{" { statement } "}"
statement  = "let" NAME "=" expression
           | place ( "=" | "+=" | "-=" | "*=" | "/=" | "%=" ) expression
           | choice
           | "repeat" NUMBER block
           | "abort" ( NUMBER | NAME )
           | "reply" expression { "," expression }
choice     = "if" expression block [ "else" ( block | choice ) ]

expression = both { "or" both }
both       = test { "and" test }
test       = "not" test | sum [ ( "<" | ">" | "<=" | ">=" | "==" | "!=" ) sum ]
sum        = product { ( "+" | "-" ) product }
product    = operand { ( "*" | "/" | "%" ) operand }
operand    = NUMBER | place | "number" "(" place ")" | "(" expression ")"
           | ( "min" | "max" ) "(" expression "," expression ")"

client     = "client" "{" { call } "}" | "clients" NUMBER
call       = title "(" [ constant { "," constant } ] ")"
option     = ( "version" | "cap" | "bits" | "limit" ) NUMBER | "hash" ( "modulo" | "spread" )
           | "schedule" "{" { event } "}"
event      = ( "find" | "enter" | "load" | "store" | "release" | "finish" ) NUMBER
           | "claim" | "admit" | "front" | "scan"

A NAME has letters, digits and _, and does not begin with a digit. A TEXT is written as in JSON. A ";" may stand between
statements, calls, events and parts. A "#" begins a comment, up to the end of its line.

Records: stock[3] is three records, stock[0] to stock[2], with a value for each in brackets, or one value for all.
Without a value they hold 0. In values and in calls the name of a record stands for its number.

Arguments: one with "read" or "write" is a record, and a key. The body uses the record by this name, and number(NAME) is
its number. Any other argument is a number. An unused argument is a mistake, unless its name begins with "_".

Other keys: the body may use any record by its name. Its key comes after all listed ones, in the order of first use, and
is a "write" key if the body sets it. Keys are listed after "using" where their order counts, for a second name of a
record, and for an indirect key: using write through card as account, where card is an argument or listed before.

Locals: "let" gives a local a value where it is not surely set, and a statement without "let" where it is. No local has
the name of something else.

Operators: a > b is b < a, and a <= b is not b < a, so b is evaluated first. a and b is min(a, b), and a or b is
max(a, b): both sides are evaluated.

Clients: "client" begins the script of the next client. "clients 8" stands for eight scripts without calls.

Version: unless the text says one, it is the lowest that has what the text uses.
"""
MOST = (1 << 64) - 1
MOST_RECORDS = 65536
MOST_PROCEDURES = MOST_EVENTS = 1 << 20
MOST_CLIENTS = 1024
MOST_CALLS = 65536
MOST_INDEX = (1 << 32) - 1
MOST_ARGS = LOCALS = MOST_REPLIES = 8
MOST_KEYS = {1: 16, 2: 32}
MOST_DEEP = 32
MOST_NODES = 1024
MOST_WEIGHT = 65536
MOST_TURNS = 64
MOST_CODE = 65535
MOST_BYTES = 1 << 24
# Brackets and operators inside one another: more than a body may be deep, and fewer than Python's own calls.
MOST_NESTED = 100

# The options that are numbers, with the least and the most of each.
OPTIONS = {'version': (1, 2), 'cap': (1, 65536), 'bits': (1, 1 << 20), 'limit': (1, 65536)}
HASHES = ('modulo', 'spread')
# The events of a schedule, and whether a client or a ticket follows.
EVENTS = {'find': True, 'enter': True, 'claim': False, 'admit': False, 'front': False, 'scan': False,
          'load': True, 'store': True, 'release': True, 'finish': True}
# The words that are no names.
RESERVED = set('if else repeat abort reply let not and or min max number read write through as using'.split())

# How tightly an operator binds.
OR, AND, NOT, COMPARISON, SUM, PRODUCT, ATOM = range(7)
LEVELS = {'or': OR, 'and': AND, '<': COMPARISON, '>': COMPARISON, '<=': COMPARISON, '>=': COMPARISON,
          '==': COMPARISON, '!=': COMPARISON, '+': SUM, '-': SUM, '*': PRODUCT, '/': PRODUCT, '%': PRODUCT}
WORDS = {'+': 'add', '-': 'sub', '*': 'mul', '/': 'div', '%': 'rem', '<': 'less', '==': 'equal', 'and': 'min',
         'or': 'max'}
SIGNS = {word: sign for sign, word in WORDS.items()}
# What sets a record or a local.
SETTING = ('=', '+=', '-=', '*=', '/=', '%=')

# How long a line of a text may be.
WIDTH = 100
