#!/usr/bin/env python3
"""Tries whether the tables of mcal say what the readers of mcal_bench do: tools/desk_rows.py MCAL BENCH

`mcal schema` tells the keys of a configuration, and `mcal lint` what may stand behind each word of a script. Each key is
tried with the least and the most of its numbers, each of its names, its shortest and its longest array, with numbers and
arrays beyond these, with a value of another kind, and without a value; and in each table that doesn't list it. Each
directive and service is tried with the most at each of its places, one more than that, each name of all places, and one
word too few and too many. `mcal_bench check` says what the readers make of it. What they have in another way is told, and
the last two lines say how many keys and words there were.
"""

import concurrent.futures
import json
import os
import pathlib
import re
import subprocess
import sys
import tempfile
from collections import namedtuple

TOP = pathlib.Path(__file__).resolve().parent.parent
SECONDS = 60
# No word of the language, and unlike any, so that lint tells all that may stand in its place.
STRANGE = '?' * 12
# More words than stand behind any.
MOST_WORDS = 70
# A value of a kind that no key has.
DATE = '1979-05-27'

# A key: its module, its array or None, its name, its schema, and which other key with which name it is asked for with.
Key = namedtuple('Key', 'module array name schema asked is_needed')
# An operand of a line: its kind (number, several, name, buffer or service), the most of its numbers, and its names.
Operand = namedtuple('Operand', 'kind most names')
# A word with what stands in front of it, and its places.
Row = namedtuple('Row', 'front places')


def output_of(words, given=''):
    """What a program prints."""
    ran = subprocess.run(words, input=given.encode(), stdout=subprocess.PIPE, stderr=subprocess.DEVNULL, timeout=SECONDS, check=False)
    return ran.stdout.decode()


def all_at_once(function, things):
    """What a function gives for each of some things; several are looked at at once."""
    with concurrent.futures.ThreadPoolExecutor(os.cpu_count()) as pool:
        return list(pool.map(function, things))


# ---- keys

def key_of(module, array, name, schema):
    """A key by what the schema says of it."""
    need = schema['description']
    asked = re.match(r'required with (\w+) = (\w+)', need)
    return Key(module, array, name, schema, asked and asked.groups(), need.startswith('required'))


def tables_of(mcal):
    """The tables of a configuration, each a list of keys: those of the modules, and those of their arrays."""
    tables = []
    for module, table in json.loads(output_of([mcal, 'schema']))['properties'].items():
        tables.append([key_of(module, None, name, schema) for name, schema in table['properties'].items()])
        for array, schema in table['properties'].items():
            rows = schema.get('items', {}).get('properties', {})
            if rows:
                tables.append([key_of(module, array, name, row) for name, row in rows.items()])
    return tables


def array_of(count, value):
    """An array with so many of a value."""
    return '[' + f'{value},' * count + ']'


def element_of(schema):
    """A value that stands in the arrays of a key, for each name that does."""
    items = schema['items']
    if items['type'] == 'object':
        return ['{}']
    return [f'"{name}"' for name in items['enum']] if 'enum' in items else [str(items['minimum'])]


def good_of(schema):
    """Values that a key takes."""
    kind = schema['type']
    if kind == 'boolean':
        return ['true', 'false']
    if kind == 'integer':
        return [str(schema['minimum']), str(schema['maximum'])]
    if kind == 'string':
        return [f'"{name}"' for name in schema.get('enum', ['any'])]
    if schema['items']['type'] == 'object':
        return ['[]']
    return [array_of(count, value) for value in element_of(schema) for count in (schema['minItems'], schema['maxItems'])]


def bad_of(schema):
    """Values that a key doesn't take."""
    kind = schema['type']
    if kind == 'integer':
        return [DATE, str(schema['minimum'] - 1), str(schema['maximum'] + 1), '1.0']
    if kind == 'string' and 'enum' in schema:
        return [DATE, '"no such name"']
    if kind == 'array':
        counts = [schema['minItems'] - 1] * (schema['minItems'] > 0) + [schema['maxItems'] + 1]
        return [DATE, *(array_of(count, element_of(schema)[0]) for count in counts)]
    return [DATE]


def members_of(table, tried, value):
    """A table that has what it has to have, and this value of a key, or none."""
    members = []
    for key in table:
        if key.name == tried.name:
            continue
        if tried.asked and tried.asked[0] == key.name:
            members.append(f'{key.name} = "{tried.asked[1]}"')
        elif key.is_needed and (key.asked is None or key.asked == tried.asked):
            members.append(f'{key.name} = {good_of(key.schema)[0]}')
    return ', '.join(members + [f'{tried.name} = {value}'] * (value is not None))


def is_refused(bench, table, tried, value):
    """Whether the reader of configurations finds a fault at a key that has this value, or none."""
    module, array = table[0].module, table[0].array
    members = members_of(table, tried, value)
    text = f'[{module}]\n{array} = [ {{ {members} }} ]\n' if array else f'{module} = {{ {members} }}\n'
    path = f'{module}.{array}.0.{tried.name}' if array else f'{module}.{tried.name}'
    told = output_of([bench, 'check'], text + '---\n').split()
    assert told[0] == 'configuration', told
    return told[1] == 'fault' and (told[2] == '1' or told[2] in '234' and told[3].startswith(path))


def key_trials(tables):
    """What is tried of keys: the table, the key, its value or None, and whether it is to be refused."""
    for table in tables:
        for key in table:
            yield from ((table, key, value, False) for value in good_of(key.schema))
            yield from ((table, key, value, True) for value in bad_of(key.schema))
            yield table, key, None, key.is_needed
        names = {key.name for key in table}
        yield from ((table, key, DATE, False) for other in tables for key in other if key.name not in names)


def try_keys(mcal, bench):
    """Tries each key, and tells how many there are and what the reader has in another way."""
    tables = tables_of(mcal)
    trials = list(key_trials(tables))
    refused = all_at_once(lambda trial: is_refused(bench, *trial[:3]), trials)
    faults = [f'{table[0].module} {key.name}: the reader has it in another way: {value}'
              for (table, key, value, wanted), got in zip(trials, refused) if got != wanted]
    return sum(map(len, tables)), len(trials), faults


# ---- words

def findings_of(mcal, lines):
    """What lint finds in each of some lines of a script."""
    with tempfile.NamedTemporaryFile('w', suffix='.bench') as file:
        file.write('---\n' + ''.join(f'{line}\n' for line in lines))
        file.flush()
        findings = json.loads(output_of([mcal, 'lint', '--json', file.name]))['findings']
    return [[finding for finding in findings if finding['line'] == number] for number in range(2, len(lines) + 2)]


def listed(finding):
    """The words that lint says are allowed."""
    start = 'allowed: '
    assert finding['help'].startswith(start), finding
    return finding['help'][len(start):].split(', ')


def operand_of(finding, rest):
    """The place at which lint found a strange word."""
    if finding['what'].endswith('is no buffer'):
        return Operand('buffer', None, None)
    most = re.search(r' is 0 to (\d+)', finding['help'])
    if most:
        return Operand('several' if rest else 'number', int(most[1]), None)
    return Operand('name', None, listed(finding))


def rows_of(mcal, fronts):
    """The rows of words, which stand behind what a line begins with."""
    rows = []
    forms = findings_of(mcal, [front + f' {STRANGE}' * MOST_WORDS for front in fronts])
    counts = [re.findall(r'<[^>]*>( \.\.)?', form['help']) for [form] in forms]
    found = findings_of(mcal, [front + f' {STRANGE}' * len(count) for front, count in zip(fronts, counts)])
    for front, count, findings in zip(fronts, counts, found):
        assert len(findings) == len(count), (front, findings)
        rows.append(Row(front, [operand_of(finding, rest) for finding, rest in zip(findings, count)]))
    return rows


def asking_row(mcal, word):
    """The row of a word behind which a level and a service stand."""
    [[finding]] = findings_of(mcal, [f'{word} {STRANGE} Mcu_Init'])
    return Row(word, [operand_of(finding, ''), Operand('service', None, None)])


def all_rows(mcal):
    """The rows of all directives and services."""
    [[finding]] = findings_of(mcal, [STRANGE])
    directives = listed(finding)
    services = re.findall(r'/// `(\w+)`', (TOP / 'crates' / 'mcal_base' / 'src' / 'service.rt').read_text())
    asking = ['call', 'do']
    rows = rows_of(mcal, [word for word in directives if word not in asking] + [f'do 0 {service}' for service in services])
    return [asking_row(mcal, word) for word in asking if word in directives] + rows


def good_word(place):
    """A word that may stand at a place."""
    words = {'buffer': 'null', 'service': 'Mcu_Init'}
    return words.get(place.kind) or (place.names[0] if place.names else str(place.most))


def words_at(place, names):
    """What is tried at a place: each word, and whether it is taken."""
    if place.kind == 'name':
        return [(name, name in place.names) for name in names]
    if place.kind == 'buffer':
        return [('0', True), ('1', True), ('2', False), ('src', False)]
    return [] if place.kind == 'service' else [(str(place.most + 1), False)]


def line_trials(rows):
    """What is tried of words: lines, and whether they are taken."""
    names = sorted({name for row in rows for place in row.places for name in place.names or []})
    for row in rows:
        words = [row.front, *map(good_word, row.places)]
        yield words, True
        if row.places:
            yield words[:-1], False
        if not row.places or row.places[-1].kind != 'several':
            yield words + ['0'], False
        for number, place in enumerate(row.places, 1):
            for word, taken in words_at(place, names):
                yield words[:number] + [word] + words[number + 1:], taken


def try_words(mcal, bench):
    """Tries each row of words, and tells how many there are and what the reader has in another way."""
    rows = all_rows(mcal)
    trials = [(' '.join(words), taken) for words, taken in line_trials(rows)]
    told = all_at_once(lambda trial: output_of([bench, 'check'], f'---\n{trial[0]}\n'), trials)
    wanted = {True: 'configuration ok\nscript ok 1\n', False: 'script fault 1 '}
    faults = [f'{line}: the reader has it in another way'
              for (line, taken), text in zip(trials, told) if not text.startswith(wanted[taken])]
    return len(rows), len(trials), faults


def main():
    mcal, bench = sys.argv[1:]
    for what, try_all in (('keys', try_keys), ('words', try_words)):
        count, trials, faults = try_all(mcal, bench)
        print(''.join(f'{fault}\n' for fault in faults) + f'{count} {what} tried in {trials} ways', flush=True)


if __name__ == '__main__':
    main()
