#!/usr/bin/env python3
"""Writes crates/round_trips/stdin, the records that the program round_trips reads, and stdout, what it has to print for them.
`make_round_trips.py --check` writes nothing, and says whether the files are what the cases and the tables make.

A record is a head of eight bytes (its kind: 0 file, 1 table; its bit order; its level in two bytes; the count of the bytes that follow in four) and a file, or a table's numbers in eight bytes each.

Files are those of tests/cases.txt that fit the program's room, each at its own level and in its own order; those of at most SHORT bytes at the levels where they begin and cease to be read alike, too, and at their own
level in the other order and in one that is neither; and the samples at those levels. Tables are those of tests/tables.txt that fit it, whose expectations were derived by hand, in their own order, in the other and in one
that is neither; and the tables of the accepted cases, each once, with one number changed. What the program has to print comes from pag_reference: `kept` says that lent memory is as it was, all of it after a refusal, and what is past the count after an acceptance."""

import os
import sys

import check_cases
import pag_reference

# Every level up to the highest code that is read, and the top.
LEVELS = [*range(28), 1023]
NEITHER = [2, 255]
TOP_ORDER = 255
ROOM = 16384
SHORT = 2000
CHANGED = 40
FILE, TABLE = 0, 1
HERE = os.path.dirname(os.path.abspath(__file__))
CRATE = os.path.join(HERE, '..', '..', 'crates', 'round_trips')
TABLES = os.path.join(HERE, '..', 'tables.txt')
SAMPLES = os.path.join(HERE, '..', '..', 'samples')


def head(kind, level, order, count):
    return bytes([kind, order]) + level.to_bytes(2, 'little') + count.to_bytes(4, 'little')


def file_record(level, order, data):
    """A file's record, and its line: read, read with room for one number less, written back, and written with one byte too few."""
    answer = pag_reference.read(level, order, data)
    line = 'file %d %d ' % (level, order)
    if answer[0] == 'refused':
        line += 'refused %d %d kept' % answer[1:]
    else:
        assert pag_reference.write(level, order, answer[1]) == ('file', data)
        count, size = len(answer[1]), len(data)
        assert count <= ROOM
        line += 'read %d kept short 19 %d kept write %d same kept short 21 %d kept' % (count, count, size, size)
    return head(FILE, level, order, len(data)) + data, line


def table_record(level, order, table):
    """A table's record, and its line: written, and read back."""
    answer = pag_reference.write(level, order, table)
    line = 'table %d %d ' % (level, order)
    if answer[0] == 'refused':
        line += 'refused %d %d kept' % answer[1:]
    else:
        assert pag_reference.read(level, order, answer[1])[:2] == ('table', list(table))
        line += 'write %d kept read %d same kept' % (len(answer[1]), len(table))
    return head(TABLE, level, order, 8 * len(table)) + b''.join(n.to_bytes(8, 'little') for n in table), line


def tables():
    """[(level, order, numbers)] of tests/tables.txt, each compared with its expectation."""
    found = []
    for name, level, order, numbers, expected, _ in check_cases.fields(TABLES):
        table = check_cases.repeats(numbers, int)
        answer = pag_reference.write(int(level), int(order), table)
        said = 'file %d' % len(answer[1]) if answer[0] == 'file' else 'refused %d %d' % answer[1:]
        if said != expected:
            sys.exit('%s: %s, expected %s' % (name, said, expected))
        found.append((int(level), int(order), table))
    return found


def other_orders(order, number):
    """The other order, and one that is neither, each of NEITHER in turn; none where the order is neither itself."""
    if order not in (pag_reference.HIGH_FIRST, pag_reference.LOW_FIRST):
        return []
    return [1 - order, NEITHER[number % len(NEITHER)]]


def telling_levels(order, data):
    """Of each row of levels that read a file alike the first and the last; none where the order is neither."""
    if order not in (pag_reference.HIGH_FIRST, pag_reference.LOW_FIRST):
        return set()
    answers = [pag_reference.read(level, order, data) for level in LEVELS]
    first = {level for i, level in enumerate(LEVELS) if i == 0 or answers[i] != answers[i - 1]}
    last = {level for i, level in enumerate(LEVELS) if i + 1 == len(LEVELS) or answers[i] != answers[i + 1]}
    return first | last


def packed_places(table):
    """Where the packed numbers of opaque bodies stand, behind their lengths."""
    place = 1
    while place < len(table):
        end = place + 3 + table[place + 2]
        if table[place + 1] % 2 == 0:
            yield from range(place + 4, end)
        place = end


def changed(table):
    """The table with each number in turn one more; and with each packed number's highest bit changed, which is filling in most last ones."""
    for i in range(len(table)):
        yield table[:i] + [(table[i] + 1) % 2 ** 64] + table[i + 1:]
    for i in packed_places(table):
        yield table[:i] + [table[i] ^ 2 ** 63] + table[i + 1:]


def samples():
    for name in sorted(os.listdir(SAMPLES)):
        if name.endswith('.pag'):
            with open(os.path.join(SAMPLES, name), 'rb') as sample:
                yield sample.read()


def case_records(number, case):
    _, level, order, data, _, _ = case
    if len(data) > SHORT:
        yield file_record(level, order, data)
        return
    for other in sorted({level} | telling_levels(order, data)):
        yield file_record(other, order, data)
    for other in other_orders(order, number):
        yield file_record(level, other, data)


def records():
    # An order has one byte in a record.
    cases = [case for case in check_cases.load() if len(case[3]) <= ROOM and case[2] <= TOP_ORDER]
    for number, case in enumerate(cases):
        yield from case_records(number, case)
    # A number has eight bytes in a record.
    for number, (level, order, table) in enumerate(one for one in tables() if 8 * len(one[2]) <= ROOM):
        for other in [order, *other_orders(order, number)]:
            yield table_record(level, other, table)
    for data in samples():
        for level in sorted(telling_levels(pag_reference.HIGH_FIRST, data)):
            yield file_record(level, pag_reference.HIGH_FIRST, data)
    yield from changed_records(cases)


def changed_records(cases):
    done = set()
    for _, level, order, _, expected, _ in cases:
        if expected[0] == 'table' and len(expected[1]) <= CHANGED and (level, *expected[1]) not in done:
            done.add((level, *expected[1]))
            for table in changed(expected[1]):
                yield table_record(level, order, table)


def main():
    if sys.argv[1:] not in ([], ['--check']):
        sys.exit(__doc__)
    made = list(records())
    texts = {'stdin': b''.join(record for record, _ in made), 'stdout': ''.join(line + '\n' for _, line in made).encode()}
    for name, text in texts.items():
        path = os.path.join(CRATE, name)
        if not sys.argv[1:]:
            with open(path, 'wb') as out:
                out.write(text)
        else:
            with open(path, 'rb') as there:
                if there.read() != text:
                    print('crates/round_trips/%s is not what the cases and tables make: run tests/reference/make_round_trips.py' % name)
                    return 1
    print('%d records' % len(made))
    return 0


if __name__ == '__main__':
    sys.exit(main())
