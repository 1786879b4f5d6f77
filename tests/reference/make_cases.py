#!/usr/bin/env python3
"""Writes what the program cases is run on, and what it must print: args, data/ and stdout of crates/cases, from those of tests/cases.txt that
are high first, as the program is, and have at most 65,535 bytes. What is printed comes from a case's own expectation; only the depth, the place, the header size and the body length
of a tag come from pag_reference, and its codes, states and values must be the expectation's, those of opaque tags unpacked.
`make_cases.py --check` writes nothing, and says whether the files are what the cases make."""

import os
import sys

import check_cases
import pag_reference

LONGEST = 65535
HERE = os.path.dirname(os.path.abspath(__file__))
CRATE = os.path.join(HERE, '..', '..', 'crates', 'cases')


def records(case):
    """The lines' fields: the listing of the expected table, or the expected refusal."""
    name, level, order, data, expected, _ = case
    if expected[0] == 'refused':
        return [expected]
    answer = pag_reference.read(level, order, data)
    if answer[:2] != expected:
        sys.exit('%s: the reference does not read the expected table' % name)
    lines = list(pag_reference.tag_lines(expected[1], answer[2]))
    plain = [data[8]]
    for line in lines:
        plain += line[4:6] + [len(line) - 6] + line[6:]
    if pag_reference.pack(plain) != expected[1]:
        sys.exit('%s: the listing does not show the expected table' % name)
    return [['PAG', data[3], len(data), data[8]]] + lines


def printed(case):
    lines = ['\t'.join(map(str, record)) + '\n' for record in records(case)]
    return '# %s %d\n' % case[:2] + ''.join(lines)


def made(cases):
    """{path below crates/cases: bytes}"""
    files = {os.path.join('data', case[0]): case[3] for case in cases}
    files['args'] = ''.join('%d\n%s\n' % (case[1], case[0]) for case in cases).encode()
    files['stdout'] = ''.join(map(printed, cases)).encode()
    return files


def there():
    """The same of what is there."""
    files = {}
    names = ['args', 'stdout'] + [os.path.join('data', n) for n in os.listdir(os.path.join(CRATE, 'data'))]
    for name in names:
        with open(os.path.join(CRATE, name), 'rb') as file:
            files[name] = file.read()
    return files


def write(files):
    data = os.path.join(CRATE, 'data')
    os.makedirs(data, exist_ok=True)
    for name in os.listdir(data):
        os.remove(os.path.join(data, name))
    for name, content in files.items():
        with open(os.path.join(CRATE, name), 'wb') as file:
            file.write(content)


def main():
    if sys.argv[1:] not in ([], ['--check']):
        sys.exit(__doc__)
    cases = [case for case in check_cases.load() if case[2] == pag_reference.HIGH_FIRST and len(case[3]) <= LONGEST]
    files = made(cases)
    if not sys.argv[1:]:
        write(files)
        print('%d of the cases written' % len(cases))
        return 0
    old = there()
    wrong = sorted(name for name in {**files, **old} if files.get(name) != old.get(name))
    if wrong:
        print('%d files of crates/cases are not what tests/cases.txt makes, first %s: run tests/reference/make_cases.py' % (len(wrong), wrong[0]))
        return 1
    print('%d of the cases are there' % len(cases))
    return 0


if __name__ == '__main__':
    sys.exit(main())
