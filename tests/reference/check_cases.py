"""Checks cases.txt against pag_reference: each expectation, the length field,
and that write gives back the bytes of each accepted file.
`check_cases.py FILE` checks another file of cases alone."""

import os
import sys

import pag_reference

HERE = os.path.dirname(os.path.abspath(__file__))
CASES = os.path.join(HERE, '..', 'cases.txt')
PROVED = 'proved'


def repeats(text, number):
    """Tokens and `token*N` spelled out; number turns a token into an int."""
    out = []
    for token in text.split():
        item, star, count = token.partition('*')
        out += [number(item)] * (int(count) if star else 1)
    return out


def parse_bytes(text):
    if any(len(token.split('*')[0]) != 2 for token in text.split()):
        raise ValueError('not pairs of hex digits: ' + text)
    return bytes(repeats(text, lambda pair: int(pair, 16)))


def parse_expected(text):
    kind, _, rest = text.partition(' ')
    numbers = repeats(rest, int)
    if kind == 'table':
        return ('table', numbers)
    if kind == 'refused' and len(numbers) == 2:
        return ('refused', numbers[0], numbers[1])
    raise ValueError('not an expectation: ' + text)


def fields(path):
    """The fields of each case's line; lines that start with # say how the file is to be read."""
    with open(path, encoding='utf-8') as lines:
        for line in lines:
            if not line.startswith('#'):
                yield line.rstrip('\n').split(' | ')


def load(path=CASES):
    """[(name, level, bit order, bytes, expected, note)], a case a line."""
    cases = []
    for name, level, order, data, expected, note, *mark in fields(path):
        if mark not in ([], [PROVED]):
            raise ValueError('%s: not a mark: %s' % (name, mark))
        cases.append((name, int(level), int(order), parse_bytes(data),
                      parse_expected(expected), note))
    return cases


def proved(path=CASES):
    """The names of the cases that are marked: crates/format/proofs/Tested.antt has them too."""
    return [line[0] for line in fields(path) if line[6:] == [PROVED]]


def length_field_right(data, expected):
    """The length field is right wherever it is not the point (1 to 5, 24)."""
    if expected[0] == 'refused' and (expected[1] <= 5 or expected[1] == 24):
        return True
    return int.from_bytes(data[4:8], 'little') == len(data)


def disagreements(case):
    name, level, order, data, expected, _ = case
    found = []
    answer = pag_reference.read(level, order, data)
    if answer[:2] != expected if answer[0] == 'table' else answer != expected:
        found.append('reads as %s, expected %s' % (str(answer)[:300], str(expected)[:300]))
    if not length_field_right(data, expected):
        found.append('length field is wrong')
    if expected[0] == 'table':
        if pag_reference.write(level, order, expected[1]) != ('file', data):
            found.append('write does not give back the file')
    return ['%s: %s' % (name, text) for text in found]


def names_twice(names):
    return ['name twice: ' + name for name in sorted(set(names)) if names.count(name) > 1]


def main():
    cases = load(*sys.argv[1:2])
    found = names_twice([case[0] for case in cases])
    for case in cases:
        found += disagreements(case)
    for text in found:
        print(text)
    print('%d cases, %d disagreements' % (len(cases), len(found)))
    return 1 if found else 0


if __name__ == '__main__':
    sys.exit(main())
