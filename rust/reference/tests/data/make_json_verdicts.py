"""Writes json_verdicts.txt: JSON texts, sound and damaged, with what Python's own `json` module makes of them.

    python3 make_json_verdicts.py > json_verdicts.txt

Nothing here is shared with the reader that is tested. Python decides whether a text is JSON, decodes its strings, and
turns numbers into floats; its tree over the signature of document 02, Wish 1, without keys, is then written as term
text. Of a text that Python refuses, the place is the length of its longest front that some ending makes JSON, where the
endings are tried one by one.

A line is: answer, text, and further fields, with a tab between them. In a text the bytes outside of 32 to 126 and the
backslash are written as backslash, x and two hex digits.

    read  TEXT  TERM  TEXTS   JSON whose numbers have the forms that are read; TEXTS are the decoded texts by number, in hex
    73    TEXT                a number has another form, or (72) a key stands twice in an object; or both, as 72,73
    71    TEXT  PLACE         not JSON
"""

import json
import random
import struct
import sys

SEED = 8259
LONGEST = 90
# How often each text below is damaged, and how many texts are made up, each damaged this often.
MUTANTS = 30
MADE_UP = 1000
MUTANTS_OF_MADE_UP = 2

BASES = [
    b'null', b'true', b'false', b'0', b'-0', b'-0.0', b'12', b'-7', b'0.5', b'1.25', b'1e5', b'1.5E-3', b'-2e+7',
    b'18446744073709551615', b'18446744073709551616', b'0.12345678901234', b'0.123456789012345', b'100.10',
    b'""', b'"a"', b'"\\"\\\\\\/\\b\\f\\n\\r\\t"', b'"\\u0041\\u00e9\\u20AC"', b'"\\ud83d\\ude00"', b'"\\uD834\\udd1e x"',
    '"é€😀"'.encode(), '"\u0080\u07ff\u0800\ud7ff\ue000\uffff\U00010000\U0010ffff"'.encode(), b'"\x7f"',
    b'[]', b'{}', b'[1]', b'[1,2,1]', b'[[],[[]],{}]', b'[null,true,false]', b'[0,-0,0.0,-0.0,0]', b'[0.1,0.10,1,1.0]',
    b'{"a":1}', b'{"a":1,"b":2}', b'{"a":{"a":{"a":"a"}}}', b'{"a":1,"a":2}', b'{"a":[1e5],"b":1E5}', b'{"":""}',
    b'{"\\u0061":1,"b":"a"}', b'[{"a":1,"b":"x"},{"a":1,"b":"x"}]', b' [ 1 , { "a" : "\\n" } ] ', b'\t\r\n{ }\n',
    b'["a","\\u0061","\\/","/"]', b'{"a":"b","b":"a","c":["c","b"]}', b'[true,[false,[null,["",[0]]]]]',
    b'{"name":"web01","weight":30,"load":0.25,"up":true}', b'[3.14159265358979,-0.00000000000001]',
    '{"café":"\\u00e9","cafe\u0301":"é"}'.encode(), b'["\\u0000","\\u001f","\\u0020"]',
]

BYTES = (b'{}[]:,"\\/-+.eE0159abcdefnrtuDFx \t\n\r\0\x0b\x0c\x1f\x7f'
         b'\x80\x8f\x90\x9f\xa0\xbf\xc0\xc1\xc2\xdf\xe0\xe1\xed\xef\xf0\xf1\xf4\xf5\xff')

PIECES = [
    b'\\u', b'\\ud800', b'\\udc00', b'\\uDBFF\\uDFFF', b'\\ud83d\\u0041', b'\\u12', b'\\x', b'\xed\xa0\x80', b'\xf4\x90',
    b'\xe2\x82\xac', b'\xc3\xa9', b'\xc0\xaf', b'\xef\xbb\xbf', b'NaN', b'-Infinity', b'Infinity', b'01', b'.5', b'1.',
    b'1e', b'e5', b'0', b'00', b'1234567890123456', b'"a":', b',"a":1', b',', b',,', b'[]', b'{}', b'"', b'null', b'tru',
]

STRING_ENDINGS = [
    b'"', b'n"', b'0"', b'00"', b'000"', b'0000"', b'u0000"', b'\\udc00"', b'udc00"', b'dc00"', b'c00"', b'0\\udc00"',
    b'00\\udc00"', b'\x80"', b'\x80\x80"', b'\x80\x80\x80"', b'\xa0\x80"', b'\x90\x80\x80"',
]
OTHER_ENDINGS = [b'', b'0', b'rue', b'ue', b'e', b'alse', b'lse', b'se', b'ull', b'll', b'l']
MEMBER_ENDINGS = [b'', b'0', b':0', b'"":0']


class Refused(Exception):
    pass


class Number:
    def __init__(self, spelled):
        self.spelled = spelled


class Pairs(list):
    """The members of an object, in order."""


def refuse(word):
    raise Refused(word)


def texts_in(value):
    """All decoded strings of a value, keys too, in the order of the text."""
    if isinstance(value, str):
        yield value
    elif isinstance(value, Pairs):
        for key, member in value:
            yield key
            yield from texts_in(member)
    elif isinstance(value, list):
        for element in value:
            yield from texts_in(element)


def parsed(data):
    """The value of a text, or nothing where Python refuses it."""
    try:
        text = data.decode('utf-8')
        if text.startswith('\ufeff'):
            return None
        value = json.loads(text, object_pairs_hook=Pairs, parse_int=Number, parse_float=Number, parse_constant=refuse)
    except (UnicodeDecodeError, json.JSONDecodeError, Refused):
        return None
    halves = (0xd800 <= ord(character) <= 0xdfff for string in texts_in(value) for character in string)
    return None if any(halves) else (value,)


def brackets_to_close(front):
    """The closing brackets that a front asks for, by a plain scan, and whether it ends in a string."""
    closing, in_string, escaped = [], False, False
    for byte in front:
        if in_string:
            in_string = escaped or byte != ord('"')
            escaped = not escaped and byte == ord('\\')
        elif byte == ord('"'):
            in_string = True
        elif byte in b'[{':
            closing.append(b']' if byte == ord('[') else b'}')
        elif byte in b']}' and closing:
            closing.pop()
    return b''.join(reversed(closing)), in_string


def can_go_on(front):
    closing, in_string = brackets_to_close(front)
    endings = STRING_ENDINGS if in_string else OTHER_ENDINGS
    candidates = (front + ending + member + closing for ending in endings for member in MEMBER_ENDINGS)
    return any(parsed(candidate) for candidate in candidates)


def place_of_fault(data):
    return next(length for length in range(len(data), -1, -1) if can_go_on(data[:length]))


def number_term(spelled):
    if spelled.isdigit() and int(spelled) < 2 ** 64:
        return f's6={spelled}'
    bits = struct.pack('>d', float(spelled) + 0.0).hex()
    return f's6~{bits}'


def has_a_form(spelled):
    digits = sum(character.isdigit() for character in spelled)
    return (spelled.isdigit() and int(spelled) < 2 ** 64) or ('e' not in spelled.lower() and digits <= 15)


def numbers_in(value):
    if isinstance(value, Number):
        yield value.spelled
    elif isinstance(value, list):
        for part in value:
            yield from numbers_in(part[1] if isinstance(value, Pairs) else part)


def objects_in(value):
    if isinstance(value, list):
        if isinstance(value, Pairs):
            yield value
        for part in value:
            yield from objects_in(part[1] if isinstance(value, Pairs) else part)


def term(value, numbers):
    """The tree as term text; texts are numbered as they come."""
    if value is None:
        return 's4'
    if isinstance(value, bool):
        return f's5={str(value).lower()}'
    if isinstance(value, Number):
        return number_term(value.spelled)
    if isinstance(value, str):
        return f's7#{numbers.setdefault(value, len(numbers))}'
    parts, last = [], 's1'
    if isinstance(value, Pairs):
        last = 's0'
        for key, member in value:
            name = term(key, numbers)
            parts.append(f's2({name},{term(member, numbers)}')
    else:
        parts = [f's3({term(element, numbers)}' for element in value]
    return ','.join(parts + [last]) + ')' * len(parts)


def fields(data):
    value = parsed(data)
    if value is None:
        return ['71', escaped(data), str(place_of_fault(data))]
    value = value[0]
    faults = []
    if any(len({key for key, _ in pairs}) < len(pairs) for pairs in objects_in(value)):
        faults.append('72')
    if not all(map(has_a_form, numbers_in(value))):
        faults.append('73')
    if faults:
        return [','.join(faults), escaped(data)]
    numbers = {}
    spelled = term(value, numbers)
    return ['read', escaped(data), spelled, ' '.join(text.encode().hex() or '-' for text in numbers)]


def escaped(data):
    plain = lambda byte: 32 <= byte <= 126 and byte != ord('\\')
    return ''.join(chr(byte) if plain(byte) else f'\\x{byte:02x}' for byte in data)


def made_up(source, depth, least=0):
    """A sound text, in which keys may recur and numbers may have any form; an array or object where least is 4."""
    kind = source.randrange(least, 4 if depth == 0 else 8)
    if kind == 0:
        return source.choice([b'null', b'true', b'false'])
    if kind in (1, 2):
        return number(source)
    if kind == 3:
        return string(source)
    space = source.choice([b'', b'', b'', b' ', b'\n', b'\t', b'\r\n'])
    parts = []
    for _ in range(source.choice([0, 1, 1, 2, 3, 4])):
        key = source.choice([b'"a"', b'"b"', b'"\\u0061"', b'"c"', string(source), string(source)])
        name = key + space + b':' if kind > 5 else b''
        parts.append(space + name + space + made_up(source, depth - 1) + space)
    return (b'{' if kind > 5 else b'[') + b','.join(parts) + (b'}' if kind > 5 else b']')


def number(source):
    whole = str(source.randrange(10 ** source.randrange(1, 22)))
    text = source.choice(['', '', '-']) + whole
    if source.randrange(2):
        text += '.' + ''.join(source.choice('0123456789') for _ in range(source.choice([1, 1, 2, 5, 14])))
    if source.randrange(12) == 0:
        text += source.choice('eE') + source.choice(['', '+', '-']) + str(source.randrange(30))
    return text.encode()


def string(source):
    """Some characters from a few, so that strings recur, each spelled in one of several ways."""
    text = b''
    for _ in range(source.choice([0, 1, 1, 1, 2, 3])):
        character = source.choice('aab\u00e9\u20ac\U0001f600"\\/\n\x7f')
        units = character.encode('utf-16-be').hex()
        long = ''.join('\\u' + units[at:at + 4] for at in range(0, len(units), 4))
        short = json.dumps(character, ensure_ascii=False)[1:-1]
        text += source.choice([short, short, short, long, long.upper().replace('\\U', '\\u')]).encode()
    return b'"' + text + b'"'


def mutant(source, data):
    data = bytearray(data)
    for _ in range(source.choice([1, 1, 1, 2, 3])):
        at = source.randrange(len(data) + 1)
        kind = source.randrange(7)
        if kind == 0:
            del data[at:]
        elif kind == 1:
            del data[at:at + source.choice([1, 1, 2, 4])]
        elif kind == 2:
            data[at:at + 1] = bytes([source.choice(BYTES)])
        elif kind == 3:
            data[at:at] = bytes([source.choice(BYTES)])
        elif kind == 4:
            data[at:at] = source.choice(PIECES)
        elif kind == 5:
            data[at:at] = data[at:at + source.randrange(1, 8)]
        else:
            data[at:at] = source.choice(BASES)
    return bytes(data[:LONGEST])


def main():
    source = random.Random(SEED)
    texts = dict.fromkeys(BASES)
    for base in BASES:
        texts.update(dict.fromkeys(mutant(source, base) for _ in range(MUTANTS)))
    for _ in range(MADE_UP):
        text = made_up(source, 3, least=4)
        if len(text) <= LONGEST:
            texts.update(dict.fromkeys([text] + [mutant(source, text) for _ in range(MUTANTS_OF_MADE_UP)]))
    print(f'# Made by make_json_verdicts.py with Python {sys.version.split()[0]}, seed {SEED}: {len(texts)} texts.')
    for text in texts:
        print('\t'.join(fields(text)))


if __name__ == '__main__':
    main()
