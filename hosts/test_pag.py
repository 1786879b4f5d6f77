#!/usr/bin/env python3
"""test_pag.py [FILES [SEED]]: hosts/pag.py against the reference of tests/reference and the expectations of tests/cases.txt.

Each file, good or damaged, is read in its bit order and in the other, at several levels, from bytes and from a path; its table, good or damaged, is written. Then what no
caller should give: wrong types, numbers out of range, files that are not there. Exits 1 at the first difference."""

import concurrent.futures
import itertools
import os
import pathlib
import pickle
import random
import re
import sys
import tempfile
from array import array

sys.dont_write_bytecode = True
ROOT = os.path.dirname(os.path.dirname(os.path.abspath(__file__)))
sys.path.insert(0, os.path.join(ROOT, 'tests', 'reference'))

import check_cases  # noqa: E402
import fuzz  # noqa: E402
import make_round_trips  # noqa: E402
import pag  # noqa: E402
import pag_reference as reference  # noqa: E402

P2 = bytes.fromhex('50 41 47 01 13 00 00 00 00 C6 01 FF 80 00 80 0A 03 00 00')
calls = 0


def answer(call, *words):
    """What a call gives, or its refusal as the reference shows it."""
    global calls
    calls += 1
    try:
        return call(*words)
    except pag.Refused as why:
        assert why.words == pag.WORDS[why.reason] and why.words in str(why)
        return 'refused', why.reason, why.number


def same(got, expected, what):
    if got != expected:
        sys.exit('%s: expected %s, got %s' % (what, str(expected)[:300], str(got)[:300]))


def check_file(data, level, order, given=None):
    """Reads the file from what is given, by default its bytes."""
    expected = reference.read(level, order, data)
    refused = expected[0] == 'refused'
    given = data if given is None else given
    what = 'level %d, order %d, %s' % (level, order, data.hex()[:2000])
    same(answer(pag.read, given, level, order), expected if refused else expected[1], 'read: ' + what)
    same(answer(pag.tags, given, level, order), expected if refused else [pag.Tag(*row) for row in expected[2]], 'tags: ' + what)


def check_table(table, level, order):
    expected = reference.write(level, order, table)
    got = answer(pag.write, table, level, order)
    same(got, expected if expected[0] == 'refused' else bytes(expected[1]), 'write: level %d, order %d, %s' % (level, order, table))


def check_field(rng, data):
    place, width, signed, order = rng.randint(0, 8 * len(data) + 9), rng.randint(0, 33), rng.choice((False, True)), rng.randint(0, 2)
    expected = reference.field(order, data, place, width, int(signed))
    if expected[0] != 'refused':
        value, after = expected[1:]
        expected = pag.Field(value - (1 << 64) if signed and value >> 63 else value, after)
    same(answer(pag.bits, data, place, width, signed, order), expected, 'bits: %s' % ((data, place, width, signed, order),))


def check_bodies(data, order):
    """The bodies of opaque tags, copied out of the table, are the bytes of the file."""
    table, at = pag.read(data, order=order), 1
    for tag in pag.tags(data, order=order):
        values = table[at + 3:at + 3 + table[at + 2]]
        start = tag.place + tag.header_size
        if table[at + 1] % 2 == 0:
            same(pag.body(values), data[start:start + tag.body_length], 'body')
        at += 3 + len(values)
    same(at, len(table), 'tags in the table')


def compare(files, seed):
    """As many good files and as many damaged ones."""
    rng = random.Random(seed)
    with tempfile.TemporaryDirectory() as folder:
        path = pathlib.Path(folder, 'file.pag')
        for number in range(files):
            order, level = number % 2, rng.choice((1024, (1 << 32) - 1)) if number % 50 == 0 else fuzz.any_level(rng)
            good = fuzz.random_file(rng, order)
            damaged = fuzz.damage(rng, good)
            path.write_bytes(damaged)
            check_file(good, level, order)
            check_file(damaged, level, order, path if number % 2 else str(path))
            if number % 10 == 0:
                check_file(good, level, rng.choice((1 - order, 2, 256, (1 << 32) - 1)), bytearray(good))
            check_bodies(good, order)
            table = reference.read(min(level, pag.LEVEL_MAX), order, good)[1]
            check_table(table, level, order)
            check_table(fuzz.damaged_table(rng, table), level, order)
            check_field(rng, good[:rng.randint(0, len(good))])


def cases():
    """The files of tests/cases.txt, those at the size limit among them, against what stands there; the tables of tests/tables.txt."""
    for name, level, order, data, expected, _ in check_cases.load():
        got = answer(pag.read, data, level, order)
        same(got, list(expected[1]) if expected[0] == 'table' else tuple(expected), name)
        if expected[0] == 'table':
            same(answer(pag.write, expected[1], level, order), data, name)
    for level, order, table in make_round_trips.tables():
        check_table(table, level, order)


def raises(error, words, call, *given, **more):
    """The call is refused before the library is asked, by this error with these words."""
    global calls
    calls += 1
    try:
        call(*given, **more)
    except error as why:
        if words in str(why) and not isinstance(why, pag.Refused):
            return
        sys.exit('%s: %r says nothing of %r' % (call.__name__, str(why), words))
    sys.exit('%s took %s %s' % (call.__name__, given, more))


def wrong_input():
    for call in (pag.read, pag.tags, pag.table, pag.tag_table):
        for wrong in (None, 7, 7.5, ['PAG'], {}, object()):
            raises(TypeError, 'a file is bytes or a path', call, wrong)
        raises(FileNotFoundError, 'No such file', call, '/no/such.pag')
        raises(IsADirectoryError, 'directory', call, ROOT)
        raises(ValueError, 'null', call, 'a\0b')
    for wrong in (None, 7, 'table', b'12345678', bytearray(8), {1: 2}, {1, 2}, iter([0]), itertools.count()):
        raises(TypeError, 'a table is a row of numbers', pag.write, wrong)
    for wrong in (1.0, '1', None, [1], 1j):
        raises(TypeError, 'number 2 of a table', pag.write, [0, 0, wrong, 0])
    for wrong in (-1, 1 << 64, 1 << 200):
        raises(ValueError, 'number 3 of a table is a number from 0 to 18446744073709551615', pag.write, (0, 0, 1, wrong))
    raises(ValueError, 'a table has at most 134217728 numbers', pag.write, range(1 << 40))
    for call, given in ((pag.read, P2), (pag.tags, P2), (pag.write, [0, 0, 1, 0])):
        for name in ('level', 'order'):
            for wrong in (None, '1', 1.0, True, b'1'):
                raises(TypeError, name + ' is a number', call, given, **{name: wrong})
            for wrong in (-1, 1 << 32, 1 << 64, -1 << 70):
                raises(ValueError, name + ' is a number from 0 to 4294967295', call, given, **{name: wrong})


def wrong_fields():
    for wrong in (None, 7, 'path', [1]):
        raises(TypeError, 'bit fields are taken from bytes', pag.bits, wrong, 0, 1)
    for place, width, words in ((-1, 1, 'place'), (1 << 64, 1, 'place'), (0, -1, 'width'), (0, 1 << 32, 'width')):
        raises(ValueError, words + ' is a number from 0', pag.bits, P2, place, width)
    for place, width, words in ((0.0, 1, 'place'), (0, '1', 'width')):
        raises(TypeError, words + ' is a number', pag.bits, P2, place, width)
    same(answer(pag.bits, P2, (1 << 64) - 1, 32), ('refused', 13, 0), 'a place near 2^64')
    for wrong in ([], [1], [9, 0], [1 << 63, 0]):
        raises(ValueError, 'not the values of an opaque tag', pag.body, wrong)


def other_input():
    """Rows and bytes of other types, a path that never ends, and an exception that goes to another process."""
    expected = pag.read(P2)
    same([pag.read(bytearray(P2)), pag.read(memoryview(P2)), pag.read(memoryview(P2 + P2)[:19])], [expected] * 3, 'bytes of other types')
    same([pag.write(tuple(expected)), pag.write(array('Q', expected)), pag.write(pag.table(P2))], [P2] * 3, 'rows of other types')
    same(answer(pag.write, range(4)), ('refused', 20, 0), 'a range')
    same(answer(pag.read, '/dev/zero'), ('refused', 3, 0), 'a path that never ends')
    same(answer(pag.read, b''), ('refused', 2, 0), 'no bytes')
    same(answer(pag.write, []), ('refused', 20, 0), 'no numbers')
    why = pickle.loads(pickle.dumps(pag.Refused(9, 11)))
    same((why.reason, why.number, why.words), (9, 11, "body longer than the list's rest"), 'a refusal that was copied')


def header():
    """Constants and reasons are those of pag.h."""
    text = pathlib.Path(ROOT, 'include', 'pag.h').read_text(encoding='utf-8')
    defined = {name: int(value) for name, value in re.findall(r'#define PAG_(\w+) (\d+)u', text)}
    for name in ('LEVEL_MAX', 'HIGH_FIRST', 'LOW_FIRST', 'FILE_MAX'):
        same(getattr(pag, name), defined[name], name)
    reasons = {int(value) for value in re.findall(r'^ {4}PAG_\w+ = (\d+)', text, re.M)}
    same(sorted(set(pag.WORDS) - reasons), [], 'reasons with words that pag.h does not have')


def threads():
    """Calls from several threads at once: the interpreter runs them beside each other while they are in the library."""
    rng = random.Random(7)
    files = [fuzz.random_file(rng) for _ in range(40)] + [P2[:-1]]
    expected = [answer(pag.read, data) for data in files]
    with concurrent.futures.ThreadPoolExecutor(8) as pool:
        same(list(pool.map(lambda data: answer(pag.read, data), files * 20)), expected * 20, 'threads')


def main(files=3000, seed=1):
    for test in (header, wrong_input, wrong_fields, other_input, threads, cases):
        test()
    compare(files, seed)
    print('%d calls, each as the reference says or refused as it must be' % calls)


if __name__ == '__main__':
    main(*map(int, sys.argv[1:]))
