#!/usr/bin/env python3
"""opacity.py              compares tests/opacities.txt with this reference
opacity.py --random N      prints N random cases in the form of that file

A second reading of document 02's C-22, the opacity of a mask at a frame, over
the body reader of pag_reference. Lines in quotation marks are its sentences."""
import os
import random
import sys
from fractions import Fraction

import pag_reference as pag

CASES = os.path.join(os.path.dirname(os.path.dirname(os.path.abspath(__file__))), 'opacities.txt')
LAST_TIME = 4294967295      # "26 for a time or t above 4,294,967,295"
DEFAULT = 255               # "the value or the default 255"


class Keyframe:
    """One keyframe: its interpolation, its start and its end."""

    def __init__(self, interpolation, start, end):
        self.interpolation = interpolation
        self.start, self.start_value = start
        self.end, self.end_value = end

    def covers(self, t):
        """"A keyframe covers its start and not its end." """
        return self.start <= t < self.end

    def at(self, t):
        """"Hold gives the start value; linear gives (start × (end time - t) +
        end × (t - start time)) over (end time - start time), not reduced." """
        if self.interpolation == pag.BEZIER:
            raise pag.Refusal(28)
        if self.interpolation == pag.HOLD:
            return self.start_value, 1
        above = self.start_value * (self.end - t) + self.end_value * (t - self.start)
        share = Fraction(t - self.start, self.end - self.start)
        value = self.start_value + (self.end_value - self.start_value) * share
        assert Fraction(above, self.end - self.start) == value
        return above, self.end - self.start


def opacity_numbers(order, body):
    """The flag and the content of the opacity, and whether the body is taken
    (else a Fault): what its attribute adds to the values."""
    reader = pag.BodyReader(order, body)
    attributes = pag.BLOCKS[14]
    flags = [pag.read_flags(reader, kind) for _, kind, _ in attributes]
    numbers = {}
    for (name, kind, data_type), flag in zip(attributes, flags):
        before = len(reader.values)
        if flag == 3:
            pag.read_keyframed(reader, kind, data_type, flag)
        elif flag == 1 and kind != 'BitFlag':
            pag.read_item(reader, data_type)
        numbers[name] = [flag] + reader.values[before:]
    reader.align()
    if reader.bytes_left():
        raise pag.Fault(18)
    return numbers['opacity']


def keyframes(content):
    """n, n interpolations, n + 1 times, a width, n + 1 values, and the easing."""
    n = content[0]
    interpolations = content[1:n + 1]
    times = content[n + 1:2 * n + 2]
    values = content[2 * n + 3:3 * n + 4]
    return interpolations, times, values


def at_frame(content, t):
    interpolations, times, values = keyframes(content)
    if max(times) > LAST_TIME or t > LAST_TIME:
        raise pag.Refusal(26)
    if any(later <= earlier for earlier, later in zip(times, times[1:])):
        raise pag.Refusal(27)
    points = list(zip(times, values))
    if t < times[0]:
        return values[0], 1
    for interpolation, start, end in zip(interpolations, points, points[1:]):
        keyframe = Keyframe(interpolation, start, end)
        if keyframe.covers(t):
            return keyframe.at(t)
    return values[-1], 1


def opacity(order, body, t):
    """('fraction', numerator, denominator) or ('refused', reason, 0)"""
    try:
        pag.check_call(order)
        flag, *content = opacity_numbers(order, body)
        if flag == 3:
            above, below = at_frame(content, t)
            values = keyframes(content)[2]
            assert min(values) <= Fraction(above, below) <= max(values)
        else:
            above, below = content[0] if content else DEFAULT, 1
    except pag.Fault as fault:
        return ('refused', fault.reason, 0)
    except pag.Refusal as refusal:
        return ('refused', refusal.reason, 0)
    return ('fraction', above, below)


# ---------------------------------------------------------------- random cases

class Bits:
    """Bits laid in one of the two orders; bytes start on a whole byte."""

    def __init__(self, order):
        self.order, self.bits = order, []

    def field(self, value, width):
        digits = [value >> i & 1 for i in range(width)]
        self.bits += digits if self.order == pag.LOW_FIRST else digits[::-1]

    def align(self, filling=0):
        while len(self.bits) % 8:
            self.bits.append(filling)

    def byte(self, value):
        self.align()
        self.field(value, 8)

    def number(self, value):
        while value > 127:
            self.byte(value % 128 + 128)
            value //= 128
        self.byte(value)

    def bytes(self):
        self.align()
        out = bytearray()
        for place in range(0, len(self.bits), 8):
            eight = self.bits[place:place + 8]
            out.append(sum(bit << (i if self.order == pag.LOW_FIRST else 7 - i) for i, bit in enumerate(eight)))
        return bytes(out)


def put_path(bits, rng):
    verbs = [rng.randrange(8) for _ in range(rng.choice((0, 1, 3, 9)))]
    width = rng.randint(1, 32)
    bits.number(len(verbs))
    for verb in verbs:
        bits.field(verb, 3)
    bits.field(width - 1, 5)
    for _ in range(sum(pag.COORDINATES[verb] for verb in verbs)):
        bits.field(rng.getrandbits(width), width)


def put_easing(bits, rng, interpolations):
    bits.align()
    width = rng.randint(1, 32)
    bits.field(width - 1, 5)
    for _ in range(4 * interpolations.count(pag.BEZIER)):
        bits.field(rng.getrandbits(width), width)


def random_times(rng, count):
    """Mostly rising; some equal, falling or above the limit."""
    top = rng.choice((count + 1, 40, 5000, LAST_TIME))
    times = sorted(rng.sample(range(top + 1), count)) if top >= count else list(range(count))
    fate = rng.random()
    if fate < 0.08:
        times[rng.randrange(count)] = rng.choice((0, top, LAST_TIME))
    elif fate < 0.14:
        times[rng.randrange(count)] = LAST_TIME + rng.choice((0, 1, 2 ** 31, 2 ** 64 - 1 - LAST_TIME))
    elif fate < 0.2:
        times[-1] = LAST_TIME + rng.randrange(2)
    return times


def put_keyframes(bits, rng, put_values):
    frames = rng.choice((1, 1, 2, 3, 5, 8, 40))
    bits.number(frames)
    interpolations = [rng.choice((pag.LINEAR, pag.LINEAR, pag.HOLD, pag.BEZIER)) for _ in range(frames)]
    for interpolation in interpolations:
        bits.field(interpolation, 2)
    times = random_times(rng, frames + 1)
    for time in times:
        bits.number(time)
    bits.align()
    put_values(frames + 1)
    put_easing(bits, rng, interpolations)
    return times


def random_body(rng, order):
    """A mask's body, and the times of its opacity."""
    bits = Bits(order)
    mode, path, opacity_flag, expansion = rng.randrange(2), rng.choice((0, 1, 3)), rng.choice((0, 1, 3, 3, 3)), rng.choice((0, 0, 1, 3))
    bits.field(rng.randrange(2), 1)
    bits.field(mode, 1)
    for flag in (path, opacity_flag, expansion):
        for bit in {0: (0,), 1: (1, 0), 3: (1, 1)}[flag]:
            bits.field(bit, 1)
    bits.number(rng.choice((0, 1, 200, 2 ** 32 - 1)))
    if mode:
        bits.byte(rng.randrange(8))
    if path == 1:
        put_path(bits, rng)
    elif path == 3:
        put_keyframes(bits, rng, lambda count: [put_path(bits, rng) or None for _ in range(count)])
    bits.align()
    times = []

    def byte_values(count):
        width = rng.randint(1, 12)
        bits.field(width - 1, 5)
        for _ in range(count):
            bits.field(rng.randrange(min(256, 1 << width)), width)

    def float_values(count):
        for _ in range(4 * count):
            bits.byte(rng.randrange(256))

    if opacity_flag == 1:
        bits.byte(rng.choice((0, 1, 128, 254, 255)))
    elif opacity_flag == 3:
        times = put_keyframes(bits, rng, byte_values)
    bits.align()
    if expansion == 1:
        float_values(1)
    elif expansion == 3:
        put_keyframes(bits, rng, float_values)
    return bits.bytes(), times


def damaged(rng, body):
    """A bit turned, bytes cut off, or bytes behind it."""
    body = bytearray(body)
    fate = rng.randrange(3)
    if fate == 0 and body:
        body[rng.randrange(len(body))] ^= 1 << rng.randrange(8)
    elif fate == 1 and body:
        del body[rng.randrange(len(body)):]
    else:
        body += bytes(rng.randrange(3) for _ in range(rng.randint(1, 3)))
    return bytes(body)


def random_frame(rng, times):
    near = [time + step for time in times for step in (-1, 0, 1)] + [0, LAST_TIME, LAST_TIME + 1, 2 ** 64 - 1]
    spread = [rng.randint(min(times), max(times))] if times else []
    return min(max(rng.choice(near * 2 + spread * len(near)), 0), 2 ** 64 - 1)


def random_cases(count):
    rng = random.Random(22)
    for index in range(count):
        order = rng.randrange(2)
        body, times = random_body(rng, order)
        if rng.random() < 0.2:
            body = damaged(rng, body)
        elif rng.random() < 0.02:
            order = rng.choice((2, 3, 256, 2 ** 32 - 1))
        yield 'random_%d' % index, order, body, random_frame(rng, times)


# ---------------------------------------------------------------- the cases

def bytes_of(text):
    """`B*N` is N times B."""
    out = bytearray()
    for word in text.split():
        byte, _, times = word.partition('*')
        out += bytes([int(byte, 16)]) * int(times or 1)
    return bytes(out)


def read_cases(path):
    """(name, order, body, t, expectation) of each line"""
    with open(path, encoding='utf-8') as file:
        for line in file:
            if line.strip() and not line.startswith('#'):
                name, order, body, t, expected = [part.strip() for part in line.split('|')][:5]
                kind, first, second = expected.split()
                yield name, int(order), bytes_of(body), int(t), (kind, int(first), int(second))


def check():
    names, wrong = set(), 0
    for name, order, body, t, expected in read_cases(CASES):
        got = opacity(order, body, t)
        if got != expected or name in names:
            wrong += 1
            print('%s: expected %s, the reference says %s' % (name, expected, got))
        names.add(name)
    print('%d cases, %d wrong' % (len(names), wrong))
    return wrong


def main():
    if sys.argv[1:2] == ['--random'] and len(sys.argv) == 3:
        for name, order, body, t in random_cases(int(sys.argv[2])):
            print('%s | %d | %s | %d | %s %d %d' % (name, order, body.hex(' '), t, *opacity(order, body, t)))
    elif len(sys.argv) == 1:
        sys.exit(1 if check() else 0)
    else:
        sys.exit(__doc__)


if __name__ == '__main__':
    main()
