"""A second reading of document 02's C-23: the single of a path step, by exact fractions, and the listing with singles for path coordinates. The coordinates are
marked where the reference reads a path, so nothing here knows where they stand."""
from fractions import Fraction

import pag_reference as pag

PRECISION = Fraction(13421773, 1 << 28)      # the single nearest to 0.05, 0x3D4CCCCD
MOST = 16777216                              # "Steps from -16777216 to 16777216 convert without loss, and only these are answered"


class Step(int):
    """A path coordinate, as a table keeps it."""


def read_path(reader):
    """The reference's path, its coordinates marked."""
    count = reader.count(0)
    verbs = [reader.unsigned(3) for _ in range(count)]
    width = reader.width()
    reader.put(count, *verbs, width)
    reader.put(*[Step(reader.signed(width)) for _ in range(sum(pag.COORDINATES[verb] for verb in verbs))])


def bits(step):
    """The bits of a step as a single, or None beyond the range. The nearest multiple of 2^(e - 23), the even one of two, for 2^e <= value < 2^(e + 1)."""
    if abs(step) > MOST:
        return None
    value = abs(step) * PRECISION
    if value == 0:
        return 0
    exponent = -200
    while Fraction(2) ** (exponent + 1) <= value:
        exponent += 1
    digits = round(value / Fraction(2) ** (exponent - 23))
    if digits == 1 << 24:
        digits, exponent = 1 << 23, exponent + 1
    return ((step < 0) << 31) | (exponent + 127) << 23 | digits - (1 << 23)


def signed(number):
    return number - (1 << 64) if number >> 63 else number


def listing(data):
    """What ./pag-list --singles prints for these bytes."""
    plain, pag.read_path = pag.read_path, read_path
    try:
        answer = pag.read(pag.TOP_LEVEL, pag.HIGH_FIRST, data)
        if len(data) > pag.LISTING_BYTES or answer[0] == 'refused' or len(answer[1]) > pag.LISTING_NUMBERS:
            return pag.listing(data)
        lines = list(pag.tag_lines(answer[1], answer[2]))
    finally:
        pag.read_path = plain
    for line in lines:
        if any(bits(signed(number)) is None for number in line if isinstance(number, Step)):
            return 'refused\t29\t%d\n' % line[1]
    records = [['PAG', data[3], len(data), data[8]]]
    records += [[bits(signed(number)) if isinstance(number, Step) else number for number in line] for line in lines]
    return ''.join('\t'.join(map(str, record)) + '\n' for record in records)
