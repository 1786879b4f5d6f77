#!/usr/bin/env python3
"""fuzz_seeds.py FOLDER: the first inputs of the fuzzer, in the form that hosts/fuzz.c takes: the files of tests/cases.txt, their tables, the tables of
tests/tables.txt, and a few bit fields."""

import os
import sys

sys.dont_write_bytecode = True
ROOT = os.path.dirname(os.path.dirname(os.path.abspath(__file__)))
sys.path.insert(0, os.path.join(ROOT, 'tests', 'reference'))

import check_cases  # noqa: E402
import make_round_trips  # noqa: E402

A_FILE, A_TABLE, A_FIELD, KEEP_HEADER = 0, 1, 2, 0x80
LONGEST = 4096
P7 = b'\x5A\x92'


def head(asked, level, order, change=(0, 0, 0)):
    """Just the room that is needed. Levels above 1023 and orders that are neither have numbers of their own there."""
    level = level if level <= 1023 else 0xFFFF if level == (1 << 32) - 1 else 0xC000
    return bytes([asked, level % 256, level // 256, order if order < 2 else 0xFF, 0, *change])


def number(n):
    return bytes([n]) if n < 0xF8 else bytes([0xF7 + max(1, (n.bit_length() + 7) // 8)]) + n.to_bytes(max(1, (n.bit_length() + 7) // 8), 'little')


def table(level, order, numbers):
    return head(A_TABLE, level, order) + b''.join(map(number, numbers))


def seeds():
    for _, level, order, data, expected, _ in check_cases.load():
        if len(data) > LONGEST:
            continue
        passes = data[:4] == b'PAG\1' and data[4:8] == len(data).to_bytes(4, 'little')
        yield head(A_FILE if passes else A_FILE | KEEP_HEADER, level, order, (33, len(data) % 256, 0)) + data
        if expected[0] == 'table':
            yield table(level, order, expected[1])
    for level, order, numbers in make_round_trips.tables():
        yield table(level, order, numbers)
    for place, width, signed in ((0, 6, 0), (6, 5, 1), (11, 6, 0), (0, 0, 0), (0, 33, 0)):
        yield head(A_FIELD, 0, 0, (width + 40 * signed, place, 0)) + P7


def main(folder):
    os.makedirs(folder, exist_ok=True)
    for i, seed in enumerate(seeds()):
        if len(seed) <= LONGEST:
            with open(os.path.join(folder, 'seed-%04d' % i), 'wb') as out:
                out.write(seed)


if __name__ == '__main__':
    main(*sys.argv[1:])
