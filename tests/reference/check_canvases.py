"""Checks tests/canvases.txt against the reference of C-15, and the reference
with itself: for each file that `read` accepts the answer is the one taken from
its table. `check_canvases.py --random FILES SEED` prints cases of as many
random files and of damaged ones, in the form of canvases.txt, for
hosts/test_canvas.c."""

import os
import random
import sys

import canvas
import check_cases
import fuzz
import pag_reference as pag

HERE = os.path.dirname(os.path.abspath(__file__))
CANVASES = os.path.join(HERE, '..', 'canvases.txt')
NEITHER = (2, 3, 255, 256, 65536, (1 << 32) - 1)
# The reasons that the walk gives; 8 is no longer given (C-11).
REASONS = (1, 2, 3, 4, 5, 6, 7, *range(9, 19), 24)


def load(path=CANVASES):
    """[(name, level, order, bytes, expected text, note)], a case a line."""
    return [(name, int(level), int(order), check_cases.parse_bytes(data), expected, note)
            for name, level, order, data, expected, note in check_cases.fields(path)]


def disagreements(case):
    """What is wrong with a case."""
    name, level, order, data, expected, _ = case
    answer = canvas.canvas(data, level, order)
    if canvas.text_of(answer) != expected:
        yield '%s: answered %s, expected %s' % (name, canvas.text_of(answer), expected)
    read = pag.read(level, order, data)
    if read[0] == 'table' and canvas.from_table(read[1]) != answer:
        yield '%s: its table has another answer' % name
    start = answer[0] == 'refused' and (answer[1] <= 5 or answer[1] == 24)
    if not start and int.from_bytes(data[4:8], 'little') != len(data):
        yield '%s: the length field is wrong' % name


def missing(cases):
    """The kinds of answers and the reasons that no case has, and the orders."""
    words = [case[4].split() for case in cases]
    for kind in ('found', 'none', 'refused'):
        if kind not in [word[0] for word in words]:
            yield 'no case is %s' % kind
    given = {int(word[2]) for word in words if word[0] == 'refused'}
    for reason in sorted(set(REASONS) ^ given):
        yield 'reason %d: not given by a case, or given by one and by no walk' % reason
    for order in (pag.HIGH_FIRST, pag.LOW_FIRST):
        if order not in [case[2] for case in cases]:
            yield 'no case has order %d' % order


def with_canvas(rng, order):
    """A file with one to three CompositionAttributes among other tags, each in up to eight containers: good at every level."""
    tags = b''
    for _ in range(rng.randint(1, 3)):
        inner = fuzz.any_tag(rng, canvas.COMPOSITION_ATTRIBUTES, fuzz.leaf_body(rng, order, canvas.COMPOSITION_ATTRIBUTES))
        for depth in range(rng.choice((0, 0, 1, 2, 8)), 0, -1):
            code, head = fuzz.container_head(rng, order)
            inner = fuzz.any_tag(rng, code, head + some_tags(rng, order, depth) + inner + fuzz.end_tag(rng))
        tags += some_tags(rng, order, 0) + inner
    return fuzz.file_of(tags + fuzz.end_tag(rng), rng.getrandbits(8))


def some_tags(rng, order, depth):
    """None to two tags of any kind that may stand at this depth."""
    tags = b''
    for _ in range(rng.choice((0, 0, 1, 2))):
        code = rng.choice(fuzz.LEAVES)
        if rng.random() < 0.3 and depth < 8:
            tags += fuzz.container(rng, order, depth)
        else:
            tags += fuzz.opaque_tag(rng) if rng.random() < 0.3 else fuzz.any_tag(rng, code, fuzz.leaf_body(rng, order, code))
    return tags


def random_files(rng, files):
    """(level, order, bytes): good files and damaged ones, mostly in the order that they were made in."""
    for number in range(files):
        made = number % 2
        level = 1024 if rng.random() < 0.01 else fuzz.any_level(rng)
        order = made if rng.random() < 0.9 else rng.choice((1 - made, 1 - made, *NEITHER))
        good = with_canvas(rng, made) if rng.random() < 0.6 else fuzz.random_file(rng, made)
        yield level, order, good
        yield level, order, fuzz.damage(rng, good)


def print_random(files, seed):
    """Each with its answer by the reference, which must be that of its table where `read` accepts it."""
    for number, (level, order, data) in enumerate(random_files(random.Random(seed), files)):
        case = ('random_%d' % number, level, order, data, canvas.text_of(canvas.canvas(data, level, order)), '')
        for text in disagreements(case):
            if 'length field' not in text:
                sys.exit(text)
        print('%s | %d | %d | %s | %s | random' % (case[0], level, order, data.hex(' ').upper() or '00*0', case[4]))
    return 0


def main(words):
    if words[:1] == ['--random']:
        return print_random(*map(int, words[1:]))
    cases = load(*words)
    names = [case[0] for case in cases]
    found = ['name twice: ' + name for name in sorted(set(names)) if names.count(name) > 1]
    found += [text for case in cases for text in disagreements(case)]
    found += missing(cases)
    for text in found:
        print(text)
    print('%d canvas cases, %d disagreements' % (len(cases), len(found)))
    return 1 if found else 0


if __name__ == '__main__':
    sys.exit(main(sys.argv[1:]))
