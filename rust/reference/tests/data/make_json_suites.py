"""Writes json_suites.txt: texts of two test suites of others, with what Python's own `json` module makes of them.

    python3 make_json_suites.py JANSSON JSON_SCHEMA > json_suites.txt

JANSSON is `test/suites` of the source of jansson 2.14, JSON_SCHEMA is `tests/draft7` of Debian's package
json-schema-test-suite 2.0.0-1.1; both suites are under the Expat licence, and json_suites.LICENCE has their notices.
Texts of more than LONGEST bytes are left out.

A line is as in json_verdicts.txt, with the text's name in front; but of a text that is read, the further fields are the
number of rows without keys, the levels, and the 64-bit FNV-1a hash of the term text.
"""

import sys
from pathlib import Path

from make_json_verdicts import Pairs, escaped, fields, parsed, term

LONGEST = 12_000


def rows_and_levels(value):
    """The distinct subtrees of a value's tree, and its height, from its term text's structure alone."""
    seen, numbers = {}, {}

    def row(symbol, children):
        return seen.setdefault((symbol, *children), len(seen))

    def chain(parts, last):
        rest, height = row(last, []), 1
        for symbol, children, highest in reversed(parts):
            rest, height = row(symbol, [*children, rest]), 1 + max(highest, height)
        return rest, height

    def tree(value):
        if isinstance(value, Pairs):
            parts = []
            for key, member in value:
                name, (child, height) = row(term(key, numbers), []), tree(member)
                parts.append(('other', [name, child], height))
            return chain(parts, 'end')
        if isinstance(value, list):
            parts = [('item', [child], height) for child, height in map(tree, value)]
            return chain(parts, 'stop')
        return row(term(value, numbers), []), 1

    _, height = tree(value)
    return len(seen), height


def fnv_1a(data):
    value = 14695981039346656037
    for byte in data:
        value = (value ^ byte) * 1099511628211 % 2 ** 64
    return value


def line(name, data):
    first, text, *rest = fields(data)
    if first == 'read':
        rows, levels = rows_and_levels(parsed(data)[0])
        rest = [str(rows), str(levels), f'{fnv_1a(rest[0].encode()):016x}']
    return '\t'.join([name, first, text, *rest])


def main():
    jansson, schema = map(Path, sys.argv[1:])
    folders = ['valid', 'invalid', 'invalid-unicode']
    found = [(f'jansson/{path.parent.relative_to(jansson)}', path)
             for folder in folders for path in sorted((jansson / folder).glob('*/input'))]
    found += [(f'json-schema/{path.relative_to(schema)}', path) for path in sorted(schema.rglob('*.json'))]
    texts = [(name, path.read_bytes()) for name, path in found]
    texts = [(name, data) for name, data in texts if len(data) <= LONGEST]
    print(f'# Made by make_json_suites.py with Python {sys.version.split()[0]}: {len(texts)} texts.')
    for name, data in texts:
        print(line(name, data))


if __name__ == '__main__':
    main()
