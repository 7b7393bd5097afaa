#!/usr/bin/env python3
"""Checks scenario.schema.json against scenarios/ and examples/, and prints a line for each scenario that disagrees.

A scenario that the program runs has to be accepted by the schema. One that it refuses has to be refused by the schema
where the schema can tell, and accepted where it cannot: MUST_REFUSE has the lines that it can tell, UNTOLD and TOLD the
scenarios that are exceptions. What is no JSON text, what no scenario is read from, and what has more than MOST_BYTES is
left out. The status is 0 where all agree, 1 where one disagrees, and 3 where python3 has no jsonschema for it.
"""
import json
import re
import sys

from cases import TOP, bytes_of, read_cases

try:
    from jsonschema import Draft202012Validator
except ImportError:
    Draft202012Validator = None

MOST_BYTES = 1 << 20

# Checks 1, 2, 8, 14 and 15 are a ninth argument, a key too many, a local over 7, a second indirect key and a repeat of
# more than 64 turns.
MUST_REFUSE = re.compile(r'vll: scenario: (shape|size|check \d+ (1|2|8|14|15)\n)')

# Scenarios that the program refuses by such a line, and the schema cannot: to JSON Schema 1.0, 1e3, 1e-400 and -0 are
# whole numbers from 0.
UNTOLD = set('''
    abort_code_with_a_point bits_with_a_point bits_with_an_exponent cap_with_a_point cap_with_an_exponent
    client_with_a_sign index_with_a_point key_record_with_a_point limit_with_a_point limit_with_an_exponent
    number_with_a_point number_with_an_exponent record_minus_zero record_with_a_point record_with_a_small_exponent
    record_with_an_exponent repeat_count_with_a_point through_index_with_a_point ticket_with_a_point
    ticket_with_an_exponent version_two_with_a_point version_with_a_point version_with_an_exponent
    explained_exponent_in_a_record explained_exponent_in_an_option explained_exponent_with_a_sign_in_an_argument
    explained_minus_zero_in_a_code explained_number_in_the_last_of_two_members explained_point_in_a_count
    explained_point_in_a_local explained_point_in_a_number_of_arguments explained_point_in_a_test
    explained_point_in_the_index_of_a_key explained_point_in_the_record_of_a_key
'''.split())

# Scenarios that the schema refuses, and the program by a line that the schema cannot tell: for a record, an argument or
# a key past all that there may be, for more arguments than any procedure has, and for a fault that it tells later.
TOLD = set('''
    largest_fixed_record argument_255 key_at_argument_255 key_255 set_of_key_255 through_key_255
    call_of_nine_arguments
    lowest_faulty_procedure undeclared_argument_before_unknown_local through_an_indirect_key
    through_itself_before_turns through_itself_before_two_indirect_keys too_long_before_two_indirect_keys
    too_many_replies_before_turns unset_local_before_turns
'''.split())


def scenarios():
    """Each scenario that the schema can be asked for: its name, its tree, and the first line that is to be printed.

    That is no line where an outcome is judged: such a scenario runs.
    """
    for case in read_cases()[0]:
        line = case.line().decode()
        text = bytes_of(case.text, MOST_BYTES + 1)
        if not re.match(r'vll: (command line|scenario: (json|read))\n', line) and len(text) <= MOST_BYTES:
            yield case.name, json.loads(text), line


def disagreements(schema, asked):
    """A line for each of the scenarios that disagrees with a schema, and for each exception that is no scenario."""
    Draft202012Validator.check_schema(schema)
    validator = Draft202012Validator(schema)
    for name, tree, line in asked:
        wanted = name in TOLD or bool(MUST_REFUSE.match(line)) and name not in UNTOLD
        if validator.is_valid(tree) == wanted:
            yield f'{name} is not {"refused" if wanted else "accepted"} by the schema'
    for name in sorted((UNTOLD | TOLD) - {name for name, _, _ in asked}):
        yield f'{name} is named as an exception, and is no scenario'


def main():
    if not Draft202012Validator:
        print('python3 has no jsonschema of draft 2020-12 (in Debian: the package python3-jsonschema)')
        return 3
    sys.setrecursionlimit(20000)
    asked = list(scenarios())
    wrong = list(disagreements(json.loads((TOP / 'docs/scenario.schema.json').read_text()), asked))
    for line in wrong:
        print(line)
    print(f'{len(asked)} scenarios, {len(wrong)} disagree')
    return 1 if wrong or not asked else 0


if __name__ == '__main__':
    sys.exit(main())
