"""Random valid files in either bit order, damaged variants of them, and a
self-check of pag_reference with both. The files are made here from document
01's items as rows of bit fields, without pag_reference's writer."""

import random
import sys

import pag_reference as pag

COVERED = (0, 1, 2, 3, 5, 6, 7, *range(9, 28))
LEAVES = (1, 3, 6, 7, *range(9, 15), *range(16, 28))
# Lengths of opaque bodies: every filling, and both sides of a whole number and of a long header.
OPAQUE_LENGTHS = (*range(18), 23, 24, 25, 61, 62, 63, 64, 65, 100, 101)


# ------------------------------------------------------------ items as fields

def ub(value, width):
    """A row of one field."""
    return [(value, width)]


def sb(value, width):
    return ub(value % (1 << width), width)


def row(parts):
    """The fields of all parts, one part after the other."""
    return [field for part in parts for field in part]


def pad(fields):
    """Zero bits up to a whole byte."""
    left = -sum(width for _, width in fields) % 8
    return fields + ub(0, left) if left else fields


def as_bytes(order, fields):
    """The bits of all fields in the order of a file, and then the bytes that
    they fill from their top bit or, low first, from their lowest bit."""
    turn = -1 if order == pag.LOW_FIRST else 1
    bits = ''.join(format(value, '0%db' % width)[::turn] for value, width in pad(fields))
    return bytes(int(bits[i:i + 8][::turn], 2) for i in range(0, len(bits), 8))


def sized(rng, top_bits):
    """A random number of at most top_bits bits, each length alike."""
    return rng.getrandbits(rng.randint(1, top_bits))


def spelled(value):
    fields = []
    while value > 127:
        fields += ub(128 + value % 128, 8)
        value //= 128
    return fields + ub(value, 8)


def u32(rng):
    return spelled(sized(rng, 32))


def time(rng):
    return spelled(sized(rng, 64))


def i32(rng):
    d = sized(rng, 32)
    return spelled(0 if d == 1 else d)


def byte(rng):
    return ub(rng.getrandbits(8), 8)


def float_(rng):
    return row(byte(rng) for _ in range(4))


def bool_(rng):
    return ub(rng.getrandbits(1), 8)


def color(rng):
    return byte(rng) + byte(rng) + byte(rng)


def ratio(rng):
    return i32(rng) + u32(rng)


def blend_mode(rng):
    return ub(rng.choice(list(range(17)) + list(range(21, 27))), 8)


def track_matte(rng):
    return ub(rng.randint(0, 4), 8)


def mask_mode(rng):
    return ub(rng.randint(0, 7), 8)


def grouping(rng):
    return ub(rng.randint(0, 6), 8)


def one_of_two(rng):
    """PolyStarType, CompositeOrder, FillRule, GradientFillType and TrimPathsType."""
    return ub(rng.randint(0, 1), 8)


def one_of_three(rng):
    """LineCap and LineJoin."""
    return ub(rng.randint(0, 2), 8)


def merge_mode(rng):
    return ub(rng.randint(0, 4), 8)


def point(rng):
    return float_(rng) + float_(rng)


def signed_fields(rng, width, count):
    half = 1 << (width - 1)
    return row(sb(rng.randint(-half, half - 1), width) for _ in range(count))


def path(rng):
    verbs = [rng.randint(0, 7) for _ in range(rng.choice((0, 1, 2, 3, 5, 9)))]
    width = rng.randint(1, 32)
    coordinates = sum((0, 2, 2, 1, 1, 4, 4, 6)[verb] for verb in verbs)
    fields = spelled(len(verbs)) + row(ub(verb, 3) for verb in verbs)
    return fields + ub(width - 1, 5) + signed_fields(rng, width, coordinates)


def stop_places(rng):
    """The position and the midpoint of a stop: four bytes, of which each two are a number."""
    return row(byte(rng) for _ in range(4))


def gradient(rng):
    alphas, colors = rng.choice((0, 1, 2, 3, 9)), rng.choice((0, 1, 2, 3, 9))
    stops = row(stop_places(rng) + byte(rng) for _ in range(alphas)) + row(stop_places(rng) + color(rng) for _ in range(colors))
    return spelled(alphas) + spelled(colors) + stops


def dashes(rng):
    """Three bits, a flag, and one more where that is set."""
    return ub(rng.randint(0, 7), 3) + rng.choice((ub(0, 1), ub(1, 1) + ub(0, 1), ub(1, 1) + ub(1, 1)))


# ------------------------------------------------------------ bodies

def spatial_points(rng, count):
    """Points of a Spatial attribute: a width, and unsigned fields for x and y of each."""
    width = rng.randint(1, 32)
    return ub(width - 1, 5) + row(ub(rng.getrandbits(width), width) for _ in range(2 * count))


def frame_values(rng, kind, data_type, count):
    if kind == 'Spatial':
        return spatial_points(rng, count)
    if data_type is bool_:
        return row(ub(rng.getrandbits(1), 1) for _ in range(count))
    if data_type is byte:
        width = rng.randint(1, 32)
        values = [rng.getrandbits(min(width, 8)) for _ in range(count)]
        return ub(width - 1, 5) + row(ub(value, width) for value in values)
    return row(pad(data_type(rng)) for _ in range(count))


def spatial_list(rng, frames):
    """The sixth part: in and out of each frame as flags, a width right behind them, and x and y for each that is set."""
    flags = [rng.random() < rng.choice((0, 0.5, 1)) for _ in range(2 * frames)]
    width = rng.randint(1, 32)
    return row(ub(int(flag), 1) for flag in flags) + ub(width - 1, 5) + signed_fields(rng, width, 2 * sum(flags))


def keyframed(rng, kind, data_type, has_spatial):
    frames = rng.choice((1, 1, 2, 3, 4, 7))
    fields, beziers = spelled(frames), 0
    if kind != 'Discrete':
        interpolations = [rng.randint(1, 3) for _ in range(frames)]
        beziers = interpolations.count(2)
        fields += pad(row(ub(one, 2) for one in interpolations))
    fields += row(time(rng) for _ in range(frames + 1))
    fields += pad(frame_values(rng, kind, data_type, frames + 1))
    width, curves = rng.randint(1, 32), 2 if kind == 'MultiDimension' else 1
    fields += ub(width - 1, 5) + signed_fields(rng, width, 4 * curves * beziers)
    return pad(fields) + spatial_list(rng, frames) if has_spatial else fields


LAYER = [('BitFlag', None), ('BitFlag', None), ('Value', u32), ('Value', ratio),
         ('Value', time), ('Value', blend_mode), ('Value', track_matte),
         ('Simple', float_), ('Fixed', time)]
TEXT = [('Value', u32), ('Discrete', bool_), ('Discrete', bool_),
        ('Discrete', bool_), ('Simple', float_), ('Simple', float_)]
MORE = [('Value', grouping), ('MultiDimension', point)]
TRANSFORM = [('Value', point), ('Value', point), ('Value', float_), ('Value', float_),
             ('Value', point), ('Value', float_), ('Value', byte)]
MASK = [('Fixed', u32), ('BitFlag', None), ('Value', mask_mode),
        ('Simple', path), ('Simple', byte), ('Simple', float_)]
# The attributes of a group before its list.
GROUP = [('Value', blend_mode), ('Spatial', point), ('Spatial', point), ('MultiDimension', point),
         ('Simple', float_), ('Simple', float_), ('Simple', float_), ('Simple', byte)]
ELLIPSE = [('BitFlag', None), ('MultiDimension', point), ('Spatial', point)]
RECTANGLE = ELLIPSE + [('Simple', float_)]
POLY_STAR = [('BitFlag', None), ('Value', one_of_two), ('Simple', float_), ('Spatial', point)] + [('Simple', float_)] * 5
SHAPE_PATH = [('Simple', path)]
FILL = [('Value', blend_mode), ('Value', one_of_two), ('Value', one_of_two), ('Simple', color), ('Simple', byte)]
STROKE = [('Value', blend_mode), ('Value', one_of_two), ('Value', one_of_three), ('Value', one_of_three),
          ('Simple', float_), ('Simple', color), ('Simple', byte), ('Simple', float_)]
GRADIENT_FILL = [('Value', blend_mode), ('Value', one_of_two), ('Value', one_of_two), ('Value', one_of_two),
                 ('Spatial', point), ('Spatial', point), ('Simple', gradient), ('Simple', byte)]
GRADIENT_STROKE = [('Value', blend_mode), ('Value', one_of_two), ('Value', one_of_two), ('Spatial', point), ('Spatial', point),
                   ('Simple', color), ('Simple', byte), ('Simple', float_), ('Value', one_of_three), ('Value', one_of_three),
                   ('Simple', float_), ('Custom', dashes)]
MERGE_PATHS = [('Value', merge_mode)]
TRIM_PATHS = [('Simple', float_), ('Simple', float_), ('Simple', float_), ('Value', one_of_two)]
REPEATER = [('Value', one_of_two), ('Simple', float_), ('Simple', float_), ('Spatial', point), ('Spatial', point),
            ('MultiDimension', point), ('Simple', float_), ('Simple', byte), ('Simple', byte)]
ROUND_CORNERS = [('Simple', float_)]
LISTS = {6: LAYER, 9: TEXT, 10: MORE, 13: TRANSFORM, 14: MASK, 16: RECTANGLE, 17: ELLIPSE, 18: POLY_STAR, 19: SHAPE_PATH, 20: FILL, 21: STROKE,
         22: GRADIENT_FILL, 23: GRADIENT_STROKE, 24: MERGE_PATHS, 25: TRIM_PATHS, 26: REPEATER, 27: ROUND_CORNERS}
# How many flag bits a kind has at most; the next one is there where the one before it is set.
FLAG_BITS = {'Fixed': 0, 'BitFlag': 1, 'Value': 1, 'Custom': 1, 'Simple': 2, 'Discrete': 2, 'MultiDimension': 2, 'Spatial': 3}


def flag_bits(rng, kind):
    bits = []
    while len(bits) < FLAG_BITS[kind] and all(bits):
        bits.append(rng.getrandbits(1))
    return bits


def block(rng, attributes, last_flag=()):
    """Flags and contents; a group has one flag more behind those of its attributes."""
    flags, contents = [], []
    for kind, data_type in attributes:
        bits = flag_bits(rng, kind)
        flags += row(ub(bit, 1) for bit in bits)
        exist, animatable, has_spatial = (bits or [1]) + [0] * (3 - len(bits or [1]))
        if animatable:
            contents += pad(keyframed(rng, kind, data_type, has_spatial))
        elif exist and kind != 'BitFlag':
            contents += pad(data_type(rng))
    return pad(flags + list(last_flag)) + contents


def string(rng):
    count = rng.choice((0, 0, 1, 3, 20))
    return row(ub(rng.randint(1, 255), 8) for _ in range(count)) + ub(0, 8)


def fonts(rng):
    count = rng.choice((0, 1, 1, 2, 4))
    return spelled(count) + row(string(rng) for _ in range(2 * count))


def leaf_fields(rng, code):
    if code == 1:
        return fonts(rng)
    if code == 3:
        return i32(rng) + i32(rng) + time(rng) + float_(rng) + color(rng)
    if code == 7:
        return color(rng) + i32(rng) + i32(rng)
    if code == 11:
        return u32(rng)
    if code == 12:
        return u32(rng) + time(rng)
    return block(rng, LISTS[code])


def leaf_body(rng, order, code):
    return as_bytes(order, leaf_fields(rng, code))


# ------------------------------------------------------------ tags and files

def long_tag(code, length, body):
    """A tag by a long header, which may say another length than its body's."""
    return (code * 64 + 63).to_bytes(2, 'little') + length.to_bytes(4, 'little') + body


def tag(code, body):
    """A tag by a short header where its body has less than 63 bytes."""
    if len(body) < 63:
        return (code * 64 + len(body)).to_bytes(2, 'little') + body
    return long_tag(code, len(body), body)


def any_tag(rng, code, body):
    """A tag by a short header or by a long one, which any body may have."""
    return long_tag(code, len(body), body) if rng.random() < 0.3 else tag(code, body)


def end_tag(rng):
    return any_tag(rng, 0, b'')


def opaque_body(rng, length):
    """Random bytes; now and then with zeros at the end, which only the length tells from a filling."""
    zeros = min(length, rng.choice((0, 0, 0, 1, 2, 9)))
    return rng.randbytes(length - zeros) + bytes(zeros)


def opaque_tag(rng):
    code = rng.randint(1, 1023) if rng.getrandbits(1) else rng.choice((4, 8, 28, 29, 30))
    if code in COVERED:
        code = 1023
    length = rng.choice(OPAQUE_LENGTHS) if rng.random() < 0.9 else rng.randint(0, 700)
    return any_tag(rng, code, opaque_body(rng, length))


def filling_list(rng, room):
    """A list of about so many bytes: one opaque tag and End."""
    end = end_tag(rng)
    return any_tag(rng, 8, rng.randbytes(max(0, room - 2 - len(end)))) + end


def container_head(rng, order):
    """The code of a container, and what stands before its list."""
    code = rng.choice((2, 5, pag.SHAPE_GROUP))
    if code == pag.SHAPE_GROUP:
        return code, as_bytes(order, block(rng, GROUP, ub(1, 1)))
    return code, (rng.randbytes(1) if code == 5 else b'') + as_bytes(order, u32(rng))


def group_without_list(rng, order):
    return any_tag(rng, pag.SHAPE_GROUP, as_bytes(order, block(rng, GROUP, ub(0, 1))))


def container(rng, order, depth):
    """A container, now and then with a body near 63 bytes, or a group without a list."""
    if rng.random() < 0.1:
        return group_without_list(rng, order)
    code, head = container_head(rng, order)
    if rng.random() < 0.15:
        return any_tag(rng, code, head + filling_list(rng, rng.randint(57, 65) - len(head)))
    return any_tag(rng, code, head + tag_list(rng, order, depth + 1))


def tag_list(rng, order, depth):
    """Tags and End; containers stand at depth 0 to 7."""
    out = b''
    for _ in range(rng.choice((0, 1, 1, 2, 3))):
        pick = rng.random()
        if pick < 0.35 and depth < 8:
            out += container(rng, order, depth)
        elif pick < 0.5:
            out += opaque_tag(rng)
        else:
            code = rng.choice(LEAVES)
            out += any_tag(rng, code, leaf_body(rng, order, code))
    return out + end_tag(rng)


def file_of(tags, compression=0):
    return (b'PAG\x01' + (9 + len(tags)).to_bytes(4, 'little')
            + bytes([compression]) + tags)


def random_file(rng, order=pag.HIGH_FIRST):
    """A random file that is good at every level in this order."""
    if rng.random() < 0.3:      # one tag alone, so that damage hits its body
        code = rng.choice(LEAVES + (pag.SHAPE_GROUP,))
        if code == pag.SHAPE_GROUP:
            return file_of(group_without_list(rng, order) + end_tag(rng), rng.getrandbits(8))
        return file_of(any_tag(rng, code, leaf_body(rng, order, code)) + end_tag(rng), rng.getrandbits(8))
    return file_of(tag_list(rng, order, 0), rng.getrandbits(8))


# ------------------------------------------------------------ damage

def patched(data):
    """The data with its own length in the length field."""
    return data[:4] + len(data).to_bytes(4, 'little') + data[8:]


def flip(rng, data):
    out = bytearray(data)
    for _ in range(rng.choice((1, 1, 2, 4))):
        place = rng.randrange(len(out)) if rng.random() < 0.1 else rng.randrange(9, len(out))
        out[place] ^= 1 << rng.randrange(8)
    return bytes(out)


def cut(rng, data):
    return patched(data[:rng.randint(9, len(data))])


def insert(rng, data):
    place = rng.randint(9, len(data))
    new = rng.choice((b'\0', b'\x80', b'\xff', rng.randbytes(1), rng.randbytes(3)))
    return patched(data[:place] + new + data[place:])


def raw_cut(rng, data):
    return data[:rng.randint(0, len(data))]


def wrap(rng, data):
    """The whole list put into one to nine containers inside each other: compositions, and groups of one flag in either order."""
    tags = data[9:]
    code, head = rng.choice(((2, b'\1'), (2, b'\1'), (pag.SHAPE_GROUP, b'\0\x80'), (pag.SHAPE_GROUP, b'\0\1')))
    for _ in range(rng.randint(1, 9)):
        tags = any_tag(rng, code, head + tags) + end_tag(rng)
    return file_of(tags)


def first_tag(data):
    """The first tag's code and body, and what follows it."""
    number, size = int.from_bytes(data[9:11], 'little'), 2
    length = number % 64
    if length == 63:
        length, size = int.from_bytes(data[11:15], 'little'), 6
    start = 9 + size
    return number // 64, data[start:start + length], data[start + length:]


def other_length(rng, data):
    """The first tag by a long header that says some length, seldom its body's."""
    code, body, rest = first_tag(data)
    near = max(0, len(body) + rng.choice((-1, 0, 1)))
    length = rng.choice((near, near, 0, 62, 63, len(body + rest), len(body + rest) + 1, rng.getrandbits(32)))
    return file_of(long_tag(code, length, body) + rest)


def damage_body(rng, data):
    """The first tag's body changed and its header made to fit."""
    code, body, rest = first_tag(data)
    place = rng.randint(0, len(body))
    way = rng.randrange(3)
    if way == 0:
        body = body[:place]
    elif way == 1:
        body = body[:place] + rng.randbytes(rng.randint(1, 3)) + body[place:]
    else:
        body = body[:place] + rng.choice((b'\0', b'\x80', b'\xff')) + body[place + 1:]
    return file_of(any_tag(rng, code, body) + rest)


def damage(rng, data):
    """A damaged variant of a good file; it may still be good."""
    ways = (flip, flip, flip, cut, insert, raw_cut, wrap, other_length, damage_body, damage_body)
    return rng.choice(ways)(rng, data)


def state_places(table):
    """Where the states of the tags stand in a table."""
    places, place = [], 1
    while place < len(table):
        places.append(place + 1)
        place += 3 + table[place + 2]
    return places


def damaged_states(rng, table):
    """The table with the 2 put to some tags, or taken from them; or with a state that a tag seldom has."""
    out, places = list(table), state_places(table)
    for place in rng.sample(places, min(len(places), rng.choice((1, 1, 2, 5)))):
        out[place] = out[place] ^ 2 if rng.random() < 0.8 else rng.choice((0, 1, 2, 3, 4, 5, 6, 7, 256, sized(rng, 64)))
    return out


def opaque_counts(table):
    """Where the counts of the opaque tags stand in a packed table."""
    return [place + 1 for place in state_places(table) if table[place] % 2 == 0]


def other_number(rng, number, bits):
    """A number with one bit changed, or a little away from it, or of no body's length."""
    return rng.choice((number ^ 1 << rng.randrange(bits), number ^ 1 << rng.randrange(bits), number + 1, number - 1, number + 8, number - 8,
                       number + (1 << 32), 16777216 + rng.randint(-20, 20), -rng.randint(1, 17), 0)) % (1 << 64)


def damaged_filling(rng, table, count):
    """A bit changed in the last number, often in its filling; or all its bytes moved by one."""
    last = count + table[count]
    used = 8 * table[count + 1] % 64
    if rng.random() < 0.7:
        table[last] ^= 1 << rng.randrange(used, 64)
    else:
        table[last] = table[last] << 8 * rng.randint(1, 7) & (1 << 64) - 1


def damaged_count(rng, table, count):
    """A number more or less behind the length, with the count made to fit or not; or another count alone."""
    way, end = rng.randrange(4), count + 1 + table[count]
    if way == 0:
        table.insert(end, rng.choice((0, 0, 1, sized(rng, 64))))
    elif way == 1 and table[count] > 1:
        del table[end - 1]
    elif way == 2:
        del table[count + 1]
    else:
        table[count] = other_number(rng, table[count], 8)
        return
    if rng.random() < 0.8:
        table[count] = (table[count] + (1 if way == 0 else -1)) % (1 << 64)


def damaged_packing(rng, table):
    """The table with one packed body damaged: its length, its count, its filling or its bytes."""
    out = list(table)
    count = rng.choice(opaque_counts(table))
    way = rng.randrange(4)
    if way == 0:
        out[count + 1] = other_number(rng, out[count + 1], 8)
    elif way == 1:
        damaged_count(rng, out, count)
    elif out[count] > 1 and way == 2:
        damaged_filling(rng, out, count)
    else:
        place = count + rng.randint(1, out[count])
        out[place] = other_number(rng, out[place], 64)
    return out


def damaged_table(rng, table):
    if rng.random() < 0.3:
        return damaged_states(rng, table)
    if opaque_counts(table) and rng.random() < 0.6:
        return damaged_packing(rng, table)
    out = list(table)
    place = rng.randrange(len(out))
    way = rng.randrange(4)
    if way == 0:
        del out[place]
    elif way == 1:
        out.insert(place, rng.choice((0, 1, 2, 255, 256, sized(rng, 64))))
    elif way == 2:
        out[place] = rng.choice((0, 1, 3, 32, 33, 256, 1 << 32, sized(rng, 64)))
    else:
        out[place] = (out[place] + rng.choice((-1, 1))) % (1 << 64)
    return out


# ------------------------------------------------------------ self-check

def any_level(rng):
    return rng.choice((0, 1, 2, 4, 5, 6, 8, 9, 10, 11, 12, 13, 14, 15, 16, rng.randint(17, 28), *[1023] * 6))


def any_order(rng):
    return rng.choice((pag.HIGH_FIRST, pag.LOW_FIRST))


def check_rows(data, table, rows):
    """The tag table agrees with the bytes and the headers of the table: the
    state has the 2 where a long header carries a body below 63, and an opaque
    tag has its bytes packed, whatever stands in them."""
    place = 1
    for depth, code, start, size, length in rows:
        number = int.from_bytes(data[start:start + 2], 'little')
        assert table[place] == code == number // 64 and 0 <= depth <= 8
        assert size == (6 if number % 64 == 63 else 2)
        assert table[place + 1] // 2 == (size == 6 and length < 63)
        end = place + 3 + table[place + 2]
        if table[place + 1] % 2 == 0:
            check_packed(data[start + size:start + size + length], table[place + 3:end])
        place = end
    assert place == len(table)


def check_packed(body, values):
    """A body's packed values, byte by byte: byte i stands in number i / 8, and
    counts 256 to the power of i % 8 there."""
    numbers = [0] * -(-len(body) // 8)
    for i, one in enumerate(body):
        numbers[i // 8] += one * 256 ** (i % 8)
    assert values == [len(body), *numbers], (body.hex(), values)


def check_forms(level, order, data, answer):
    """The plain table and the packed one determine each other, and the two
    readings differ in nothing else."""
    plain = pag.read_plain(level, order, data)
    if answer[0] == 'refused':
        assert plain == answer
        return
    assert plain[0] == 'table' and plain[2] == answer[2]
    assert pag.pack(plain[1]) == answer[1] and pag.unpack(answer[1]) == plain[1], (level, order, data.hex())
    assert pag.write_plain(level, order, plain[1]) == ('file', data)
    # C-21: 8 times the file's bytes in both forms
    assert len(plain[1]) <= 8 * len(data) and len(answer[1]) <= 8 * len(data)


def check_written_forms(level, order, table):
    """Of any table, read as a plain one and as a packed one: the writer of the
    other form takes what it turns into, and it turns back; what has no other form is
    no file's table."""
    for turn, back, write, write_turned in ((pag.pack, pag.unpack, pag.write_plain, pag.write),
                                            (pag.unpack, pag.pack, pag.write, pag.write_plain)):
        other = turn(table)
        if other is None:
            assert write(level, order, table) == ('refused', 20, 0), (level, order, table)
        else:
            assert back(other) == table, table
            assert write(level, order, table) == write_turned(level, order, other), (level, order, table)


def claims(answer):
    """By place, whether a tag's state has the 2."""
    _, table, rows = answer
    return {row[2]: table[place] // 2 for row, place in zip(rows, state_places(table))}


def check_levels(order, data, answer):
    """"the added 2 kept at every level": what a level shows of a good file has
    the 2 where the top level shows it."""
    top = claims(pag.read(pag.TOP_LEVEL, order, data))
    assert claims(answer).items() <= top.items(), (order, data.hex())


def check_listing(data):
    """"the listing keeps printing one byte a field": what it prints of a file
    is document 01's, from the plain table."""
    lines = pag.listing(data)
    plain = pag.read_plain(pag.TOP_LEVEL, pag.HIGH_FIRST, data)
    if len(data) > 32768:
        assert lines == 'too long\n'
        return
    if plain[0] == 'refused':
        assert lines == 'refused\t%d\t%d\n' % plain[1:]
        return
    packed = len(pag.pack(plain[1]))
    if packed > 8192:
        assert lines == 'refused\t19\t%d\n' % packed
        return
    table, place, shown = plain[1], 1, []
    for depth, code, start, size, length in plain[2]:
        end = place + 3 + table[place + 2]
        shown.append([depth, start, size, length, code, table[place + 1], *table[place + 3:end]])
        place = end
    assert lines.splitlines()[1:] == ['\t'.join(map(str, line)) for line in shown], data.hex()


def check_neither(rng, level, data):
    """An order that is neither is refused, whatever the bytes are."""
    order = rng.choice((2, 3, 255, 256, 65536, (1 << 32) - 1))
    assert pag.read(level, order, data) == ('refused', 24, 0)
    assert pag.read(level + 1024, order, data) == ('refused', 1, 0)
    assert pag.write(level, order, list(data)) == ('refused', 24, 0)
    assert pag.write(level + 1024, order, list(data)) == ('refused', 1, 0)


def check_good(rng):
    """The table of a file; and of the same items in both orders, since their
    numbers know no order."""
    seed, level = rng.getrandbits(32), any_level(rng)
    tables = []
    for order in (pag.HIGH_FIRST, pag.LOW_FIRST):
        data = random_file(random.Random(seed), order)
        answer = pag.read(level, order, data)
        assert answer[0] == 'table', (level, order, data.hex(), answer)
        assert pag.write(level, order, answer[1]) == ('file', data), (level, order, data.hex())
        check_rows(data, answer[1], answer[2])
        check_forms(level, order, data, answer)
        check_levels(order, data, answer)
        check_listing(data)
        tables.append(answer[1])
    if level == pag.TOP_LEVEL:
        assert tables[0] == tables[1], (level, seed)
    check_neither(rng, level, data)


def check_damaged(rng, tally):
    order, level = any_order(rng), any_level(rng)
    data = damage(rng, random_file(rng, order))
    answer = pag.read(level, order, data)
    if answer[0] == 'table':
        assert pag.write(level, order, answer[1]) == ('file', data), (level, order, data.hex())
        check_rows(data, answer[1], answer[2])
        tally['taken'] = tally.get('taken', 0) + 1
    else:
        assert 2 <= answer[1] <= 18 and answer[1] != 8 and 0 <= answer[2] <= len(data)
        tally[answer[1]] = tally.get(answer[1], 0) + 1
    check_forms(level, order, data, answer)
    check_listing(data)


def check_table(rng, tally):
    """A file the writer gives reads as the very table."""
    level, order = any_level(rng), any_order(rng)
    table = damaged_table(rng, pag.read(level, order, random_file(rng, order))[1])
    answer = pag.write(level, order, table)
    check_written_forms(level, order, table)
    if answer[0] == 'file':
        assert pag.read(level, order, answer[1])[1] == table, (level, order, table)
    else:
        assert answer == ('refused', 20, 0)
    tally[answer[0]] = tally.get(answer[0], 0) + 1


def check_field(rng):
    """A field of the bit reader, against its bits one by one."""
    data = rng.randbytes(rng.randint(0, 11))
    place, width, signed = rng.randint(0, 100), rng.randint(0, 33), rng.random() < 0.5
    bits = {order: ''.join(format(byte, '08b')[::turn] for byte in data)[place:place + width]
            for order, turn in ((pag.HIGH_FIRST, 1), (pag.LOW_FIRST, -1))}
    bits[pag.LOW_FIRST] = bits[pag.LOW_FIRST][::-1]
    assert pag.field(2, data, place, width, signed) == ('refused', 24, 0)
    for order, digits in bits.items():
        answer = pag.field(order, data, place, width, signed)
        if not 1 <= width <= 32:
            assert answer == ('refused', 17, 0)
        elif len(digits) < width:
            assert answer == ('refused', 13, 0)
        else:
            value = int(digits, 2) - ((1 << width) if signed and digits[0] == '1' else 0)
            assert answer == ('value', value % (1 << 64), place + width), (order, data.hex(), place, width)


def block_read(order, attributes, body):
    """The values of a block of any attributes, or the reason of its fault."""
    reader = pag.BodyReader(order, body)
    try:
        pag.read_block(reader, attributes)
        reader.align()
        if reader.bytes_left():
            raise pag.Fault(18)
    except pag.Fault as fault:
        return fault.reason
    return reader.values


def block_written(order, attributes, values):
    """The body of these values, or None."""
    writer = pag.BodyWriter(order, values)
    try:
        pag.write_block(writer, attributes)
    except pag.Refusal:
        return None
    return bytes(writer.out) if writer.numbers.used_up() else None


def damaged_bytes(rng, body):
    """A body with bits changed, bytes cut off or bytes put in."""
    place, way = rng.randint(0, len(body)), rng.randrange(4)
    if way == 0:
        return body[:place]
    if way == 1:
        return body[:place] + rng.randbytes(rng.randint(1, 3)) + body[place:]
    out = bytearray(body)
    for _ in range(rng.choice((1, 1, 2, 4))):
        out[rng.randrange(len(out))] ^= 1 << rng.randrange(8)
    return bytes(out)


def damaged_values(rng, values):
    """Values with one of them changed, taken out or put in."""
    out, place, way = list(values), rng.randrange(len(values)), rng.randrange(4)
    if way == 0:
        del out[place]
    elif way == 1:
        out.insert(place, rng.choice((0, 1, 7, sized(rng, 64))))
    elif way == 2:
        out[place] = rng.choice((0, 1, 2, 3, 4, 5, 6, 7, 32, 33, 1 << 32, sized(rng, 64)))
    else:
        out[place] = other_number(rng, out[place], 33)
    return out


# Rows of every kind, in lists that no tag has.
ANY_ROWS = [('Value', 'byte', byte), ('Value', 'Point', point), ('Fixed', 'Point', point), ('MultiDimension', 'Point', point),
            ('Spatial', 'Point', point), ('Spatial', 'Point', point), ('Simple', 'Float', float_), ('Discrete', 'Bool', bool_), ('BitFlag', None, None),
            ('Simple', 'Color', color), ('Value', 'Color', color), ('Simple', 'GradientColor', gradient), ('Custom', 'dashes', dashes)]


def check_block(rng, tally):
    """A block of random rows: the same values in both orders, written back; and damaged, as bytes and as values."""
    rows = rng.choices(ANY_ROWS, k=rng.randint(1, 5))
    attributes = [('', kind, name) for kind, name, _ in rows]
    seed, bodies = rng.getrandbits(32), []
    for order in (pag.HIGH_FIRST, pag.LOW_FIRST):
        bodies.append(as_bytes(order, block(random.Random(seed), [(kind, data_type) for kind, _, data_type in rows])))
        values = block_read(order, attributes, bodies[-1])
        assert block_written(order, attributes, values) == bodies[-1], (order, attributes, bodies[-1].hex())
    assert block_read(pag.HIGH_FIRST, attributes, bodies[0]) == values, (attributes, bodies[0].hex())
    order = any_order(rng)
    damaged = damaged_bytes(rng, bodies[order])
    answer = block_read(order, attributes, damaged)
    if isinstance(answer, list):
        assert block_written(order, attributes, answer) == damaged, (order, attributes, damaged.hex())
    tally[answer if isinstance(answer, int) else 'taken'] = tally.get(answer if isinstance(answer, int) else 'taken', 0) + 1
    changed = damaged_values(rng, values)
    body = block_written(order, attributes, changed)
    assert body is None or block_read(order, attributes, body) == changed, (order, attributes, changed)
    tally['written'] = tally.get('written', 0) + (body is not None)


def show(tally):
    return ', '.join('%s: %d' % (key, tally[key]) for key in sorted(tally, key=str))


def main(seed=1, good=5000, damaged=20000, tables=10000, fields=20000, blocks=10000):
    rng = random.Random(seed)
    for _ in range(good):
        check_good(rng)
    print('%d good files in both orders: read, write, read agree' % good)
    tally = {}
    for _ in range(damaged):
        check_damaged(rng, tally)
    print('%d damaged files, no exception; by reason: %s' % (damaged, show(tally)))
    tally = {}
    for _ in range(tables):
        check_table(rng, tally)
    print('%d damaged tables: %s' % (tables, show(tally)))
    for _ in range(fields):
        check_field(rng)
    print('%d bit fields in both orders' % fields)
    tally = {}
    for _ in range(blocks):
        check_block(rng, tally)
    print('%d blocks of random rows, and as many damaged ones: %s' % (blocks, show(tally)))


if __name__ == '__main__':
    main(*map(int, sys.argv[1:]))
