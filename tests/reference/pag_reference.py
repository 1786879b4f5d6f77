"""An independent reference of the PAG reader and writer, made from document 01
and from document 02's C-18 (bit order), C-11 (long headers on short bodies),
C-17 (packed opaque bodies), C-12 (transforms and points) and C-24 (shapes).

`read` and `write` speak packed tables. Beside them stand `read_plain` and
`write_plain` for the table of document 01, where an opaque tag's values are its
body bytes, and `pack` and `unpack` between the two.

Lines in quotation marks in the comments are their sentences. Chapters are those
of source 000.
Decision n is point n of docs/DECISIONS.md.
"""

FILE_LIMIT = 16777216       # "A file has at most 16,777,216 bytes."
TOP_LEVEL = 1023            # "A level from 0 to 1023 goes with each call"
LONG_LENGTH = 63            # "Length 63 means that a .. 32-bit body length follows"
BYTES_A_NUMBER = 8          # C-17: "eight bytes to a number"
TOP_DEPTH = 8               # "A container at depth 8 is refused."
TOP_COUNT = 4096            # "Frames are 1 to 4,096; verbs and fonts 0 to 4,096."; C-24's stops too
WORD = 1 << 64              # "A negative number is kept modulo 2^64"
LISTING_BYTES = 32768       # "reads at most 32,768 bytes from standard input"
LISTING_NUMBERS = 8192      # "needing more than 8,192 numbers is refused by 19"

HIGH_FIRST, LOW_FIRST = 0, 1        # C-18: "high first or low first"
LINEAR, BEZIER, HOLD = 1, 2, 3      # "1 linear, 2 Bezier, 3 hold"
SHAPE_GROUP = 15
CONTAINERS = (2, 5, SHAPE_GROUP)    # "Tags 2 and 5 are containers."; C-24: its table gives 15 a tag list
COVERED = (0, 1, 2, 3, 5, 6, 7, *range(9, 28))
COORDINATES = (0, 2, 2, 1, 1, 4, 4, 6)  # "Coordinates by verb 0 to 7"

# The data types of bytes with an enumeration, and the numbers listed for each.
LISTED = {
    'blendMode': tuple(range(0, 17)) + tuple(range(21, 27)),
    'trackMatteType': tuple(range(0, 5)),
    'maskMode': tuple(range(0, 8)),
    'anchorPointGrouping': tuple(range(0, 7)),      # C-12: "0 to 6"
    # C-24: "the enums of chapter 2"
    'PolyStarType': (0, 1),
    'CompositeOrder': (0, 1),
    'FillRule': (0, 1),
    'LineCap': (0, 1, 2),
    'LineJoin': (0, 1, 2),
    'GradientFillType': (0, 1),
    'MergePathsMode': (0, 1, 2, 3, 4),
    'TrimPathsType': (0, 1),
}

# The kinds with an animatable bit, by the table of AttributeType in chapter 4:
# those that take more than one bit of the flags.
PROPERTIES = ('Simple', 'Discrete', 'MultiDimension', 'Spatial')

# "These lists stand in the program as constant tables of attribute kind and
# data type." (name, kind, data type)
BLOCKS = {
    6: (('isActive', 'BitFlag', None),
        ('autoOrientation', 'BitFlag', None),
        ('parent', 'Value', 'U32'),
        ('stretch', 'Value', 'Ratio'),
        ('startTime', 'Value', 'Time'),
        ('blendMode', 'Value', 'blendMode'),
        ('trackMatteType', 'Value', 'trackMatteType'),
        ('timeRemap', 'Simple', 'Float'),
        ('duration', 'Fixed', 'Time')),
    9: (('path', 'Value', 'U32'),
        ('reversed', 'Discrete', 'Bool'),
        ('perpendicular', 'Discrete', 'Bool'),
        ('forceAlignment', 'Discrete', 'Bool'),
        ('firstMargin', 'Simple', 'Float'),
        ('lastMargin', 'Simple', 'Float')),
    10: (('anchorPointGrouping', 'Value', 'anchorPointGrouping'),
         ('groupingAlignment', 'MultiDimension', 'Point')),
    13: (('anchorPoint', 'Value', 'Point'),
         ('position', 'Value', 'Point'),
         ('xPosition', 'Value', 'Float'),
         ('yPosition', 'Value', 'Float'),
         ('scale', 'Value', 'Point'),
         ('rotation', 'Value', 'Float'),
         ('opacity', 'Value', 'byte')),
    14: (('id', 'Fixed', 'U32'),
         ('inverted', 'BitFlag', None),
         ('maskMode', 'Value', 'maskMode'),
         ('path', 'Simple', 'Path'),
         ('opacity', 'Simple', 'byte'),
         ('expansion', 'Simple', 'Float')),
    SHAPE_GROUP: (('blendMode', 'Value', 'blendMode'),
                  ('anchorPoint', 'Spatial', 'Point'),
                  ('position', 'Spatial', 'Point'),
                  ('scale', 'MultiDimension', 'Point'),
                  ('skew', 'Simple', 'Float'),
                  ('skewAxis', 'Simple', 'Float'),
                  ('rotation', 'Simple', 'Float'),
                  ('opacity', 'Simple', 'byte'),
                  ('TagBlock', 'Custom', 'TagBlock')),
    16: (('reversed', 'BitFlag', None),
         ('size', 'MultiDimension', 'Point'),
         ('position', 'Spatial', 'Point'),
         ('roundness', 'Simple', 'Float')),
    17: (('reversed', 'BitFlag', None),
         ('size', 'MultiDimension', 'Point'),
         ('position', 'Spatial', 'Point')),
    18: (('reversed', 'BitFlag', None),
         ('polyType', 'Value', 'PolyStarType'),
         ('points', 'Simple', 'Float'),
         ('position', 'Spatial', 'Point'),
         ('rotation', 'Simple', 'Float'),
         ('innerRadius', 'Simple', 'Float'),
         ('outerRadius', 'Simple', 'Float'),
         ('innerRoundness', 'Simple', 'Float'),
         ('outerRoundness', 'Simple', 'Float')),
    19: (('shapePath', 'Simple', 'Path'),),
    20: (('blendMode', 'Value', 'blendMode'),
         ('composite', 'Value', 'CompositeOrder'),
         ('fillRule', 'Value', 'FillRule'),
         ('color', 'Simple', 'Color'),
         ('opacity', 'Simple', 'byte')),
    21: (('blendMode', 'Value', 'blendMode'),
         ('composite', 'Value', 'CompositeOrder'),
         ('lineCap', 'Value', 'LineCap'),
         ('lineJoin', 'Value', 'LineJoin'),
         ('miterLimit', 'Simple', 'Float'),
         ('color', 'Simple', 'Color'),
         ('opacity', 'Simple', 'byte'),
         ('strokeWidth', 'Simple', 'Float')),
    22: (('blendMode', 'Value', 'blendMode'),
         ('composite', 'Value', 'CompositeOrder'),
         ('fillRule', 'Value', 'FillRule'),
         ('fillType', 'Value', 'GradientFillType'),
         ('startPoint', 'Spatial', 'Point'),
         ('endPoint', 'Spatial', 'Point'),
         ('colors', 'Simple', 'GradientColor'),
         ('opacity', 'Simple', 'byte')),
    23: (('blendMode', 'Value', 'blendMode'),
         ('composite', 'Value', 'CompositeOrder'),
         ('fillType', 'Value', 'GradientFillType'),
         ('startPoint', 'Spatial', 'Point'),
         ('endPoint', 'Spatial', 'Point'),
         ('color', 'Simple', 'Color'),
         ('opacity', 'Simple', 'byte'),
         ('strokeWidth', 'Simple', 'Float'),
         ('lineCap', 'Value', 'LineCap'),
         ('lineJoin', 'Value', 'LineJoin'),
         ('miterLimit', 'Simple', 'Float'),
         ('dashes', 'Custom', 'dashes')),
    24: (('mode', 'Value', 'MergePathsMode'),),
    25: (('start', 'Simple', 'Float'),
         ('end', 'Simple', 'Float'),
         ('offset', 'Simple', 'Float'),
         ('trimType', 'Value', 'TrimPathsType')),
    26: (('composite', 'Value', 'CompositeOrder'),
         ('copies', 'Simple', 'Float'),
         ('offset', 'Simple', 'Float'),
         ('anchorPoint', 'Spatial', 'Point'),
         ('position', 'Spatial', 'Point'),
         ('scale', 'MultiDimension', 'Point'),
         ('rotation', 'Simple', 'Float'),
         ('startOpacity', 'Simple', 'byte'),
         ('endOpacity', 'Simple', 'byte')),
    27: (('radius', 'Simple', 'Float'),),
}

# The bodies that are rows of items (1 has its own function).
ITEMS = {
    3: ('I32', 'I32', 'Time', 'Float', 'Color'),
    7: ('Color', 'I32', 'I32'),
    11: ('U32',),
    12: ('U32', 'Time'),
    2: ('U32',),                # "Body of 2: id (U32), then a tag list."
    5: ('byte', 'U32'),         # "Body of 5: type (one byte, any), id (U32)"
}


class Refusal(Exception):
    """A refusal with its reason and its second number."""

    def __init__(self, reason, number=0):
        super().__init__(reason, number)
        self.reason, self.number = reason, number


class Fault(Exception):
    """A fault inside a body: the tag's place is not known here."""

    def __init__(self, reason):
        super().__init__(reason)
        self.reason = reason


def tag_is_read(level, code):
    """"listed tags with a code above it are opaque too" """
    return code in COVERED and code <= level


def tag_state(is_read, size, length):
    """"its state (1 read, 0 opaque)"; C-11: it "gains 2 when a long header
    carries a body below 63". The body is all of it, a list included."""
    return int(is_read) + 2 * (size == 6 and length < LONG_LENGTH)


def check_call(order, level=0):
    """"24 for an order that is neither, tried after 1 or, without a level,
    first." """
    if level > TOP_LEVEL:
        raise Refusal(1)
    if order not in (HIGH_FIRST, LOW_FIRST):
        raise Refusal(24)


# ---------------------------------------------------------------- opaque bodies

def plain_values(body):
    """Document 01: "An opaque tag's values are its body bytes." """
    return list(body)


def packed_values(body):
    """C-17: "its byte length and then eight bytes to a number, lowest byte
    first, the last number filled with zeros" """
    pieces = [body[place:place + BYTES_A_NUMBER] for place in range(0, len(body), BYTES_A_NUMBER)]
    return [len(body)] + [int.from_bytes(piece, 'little') for piece in pieces]


def plain_body(values):
    """The body with these plain values; without one, 20."""
    if not all(0 <= value <= 255 for value in values):
        raise no_file()
    return bytes(values)


def packed_body(values):
    """The body with these packed values. C-17: "a table with non-zero filling
    or a count that doesn't fit is impossible (20)" """
    length = Numbers(values).take()
    numbers = values[1:]
    if len(numbers) != (length + BYTES_A_NUMBER - 1) // BYTES_A_NUMBER:
        raise no_file()
    filled = b''.join(number.to_bytes(BYTES_A_NUMBER, 'little') for number in numbers)
    body, filling = filled[:length], filled[length:]
    if any(filling):
        raise no_file()
    return body


class Form:
    """How an opaque body stands in a table: its values, and the way back."""

    def __init__(self, values, body):
        self.values, self.body = values, body


PLAIN_FORM = Form(plain_values, plain_body)
PACKED_FORM = Form(packed_values, packed_body)


def tags_of(table):
    """The code, the state and the values of each tag of a table; 20 where the
    counts don't fit its length."""
    numbers = Numbers(table, 1)
    while not numbers.used_up():
        code, state = numbers.take(), numbers.take()
        yield code, state, numbers.take_slice(numbers.take())


def turned(table, old, new):
    """The table with its opaque bodies in another form: those of the tags with
    an even state. None where a body or a count of it is impossible."""
    out = list(table[:1])
    try:
        for code, state, values in tags_of(table):
            if state % 2 == 0:
                values = new.values(old.body(values))
            out += [code, state, len(values), *values]
    except Refusal:
        return None
    return out


def pack(table):
    """The packed table of a plain one."""
    return turned(table, PLAIN_FORM, PACKED_FORM)


def unpack(table):
    """The plain table of a packed one."""
    return turned(table, PACKED_FORM, PLAIN_FORM)


# ---------------------------------------------------------------- reading

def bits_at(order, data, place, width):
    """The number that `width` bits from a bit place on make; they are there.
    High first: "the first bit is the top bit of the byte, and the first bit of
    a field is its highest". Low first: "the first bit read is the low bit of
    the byte and the lowest of its field". So the bytes that they touch are one
    number, big-endian or little-endian, and the bits stand together in it."""
    first, last = place // 8, (place + width + 7) // 8
    if order == HIGH_FIRST:
        below = 8 * last - (place + width)
        chunk = int.from_bytes(data[first:last], 'big')
    else:
        below = place - 8 * first
        chunk = int.from_bytes(data[first:last], 'little')
    return (chunk >> below) % (1 << width)


def sign_extended(value, width):
    """"sign-extended from its top bit", modulo 2^64."""
    if value >> (width - 1):
        value -= 1 << width
    return value % WORD


def field(order, data, place, width, signed):
    """The bit reader: ('value', number, next place), or ('refused', reason, 0).
    24, then "a width outside 1 to 32 gives 17, then a field past the end 13"."""
    if order not in (HIGH_FIRST, LOW_FIRST):
        return ('refused', 24, 0)
    if not 1 <= width <= 32:
        return ('refused', 17, 0)
    if place + width > 8 * len(data):
        return ('refused', 13, 0)
    value = bits_at(order, data, place, width)
    return ('value', sign_extended(value, width) if signed else value, place + width)


class BodyReader:
    """One body and a bit place in it; `values` are the numbers read so far."""

    def __init__(self, order, body):
        self.order = order
        self.body = body
        self.bit = 0
        self.values = []

    def unsigned(self, width):
        """UB[width]; past the body is 13."""
        if self.bit + width > 8 * len(self.body):
            raise Fault(13)
        self.bit += width
        return bits_at(self.order, self.body, self.bit - width, width)

    def signed(self, width):
        """SB[width]"""
        return sign_extended(self.unsigned(width), width)

    def width(self):
        """"A width is UB[5] plus 1, everywhere: 1 to 32." """
        return self.unsigned(5) + 1

    def align(self):
        """"A byte item starts at the next whole byte; skipped bits are zero" """
        skipped = -self.bit % 8
        if skipped and self.unsigned(skipped) != 0:
            raise Fault(15)

    def byte(self):
        """A whole byte, the same in both orders."""
        self.align()
        if not self.bytes_left():
            raise Fault(13)
        self.bit += 8
        return self.body[self.bit // 8 - 1]

    def bytes_left(self):
        return len(self.body) - (self.bit + 7) // 8

    def spelled(self, most_bytes, last_at_most):
        """"seven bits a byte, lowest first, top bit set when more follow";
        "only the shortest spelling is taken"."""
        value = 0
        for index in range(most_bytes):
            byte = self.byte()
            value |= (byte & 127) << (7 * index)
            if byte < 128:
                longer = index > 0 and byte == 0
                over = index == most_bytes - 1 and byte > last_at_most
                if longer or over:
                    raise Fault(14)
                return value
        raise Fault(14)     # decision 5: all of them continue

    def u32(self):
        return self.spelled(5, 15)

    def u64(self):
        return self.spelled(10, 1)

    def i32(self):
        """"the magnitude is d / 2, odd d is negative. d = 1 (minus zero) is
        refused." """
        d = self.u32()
        if d == 1:
            raise Fault(14)
        magnitude = d // 2
        return (-magnitude if d % 2 else magnitude) % WORD

    def u16(self):
        """Chapter 1: two bytes, little-endian."""
        self.align()
        if self.bytes_left() < 2:
            raise Fault(13)
        return self.byte() + 256 * self.byte()

    def count(self, least):
        """A count of frames, verbs, fonts or stops: outside its range is 17."""
        number = self.u32()
        if not least <= number <= TOP_COUNT:
            raise Fault(17)
        return number

    def put(self, *numbers):
        self.values.extend(numbers)


def read_float(reader):
    """"four bytes, little-endian, kept as their 32-bit pattern" """
    reader.align()
    if reader.bytes_left() < 4:
        raise Fault(13)
    reader.put(sum(reader.byte() << (8 * i) for i in range(4)))


def read_bool(reader):
    """"Bool: one byte, 0 or 1." """
    value = reader.byte()
    if value > 1:
        raise Fault(16)
    reader.put(value)


def read_listed(reader, data_type):
    """A byte with an enumeration: "unlisted enum" is 16."""
    value = reader.byte()
    if value not in LISTED[data_type]:
        raise Fault(16)
    reader.put(value)


def read_string(reader):
    """"bytes up to a zero byte, may be empty"; in the table "its length and
    then its bytes"."""
    string = []
    while True:
        byte = reader.byte()
        if byte == 0:
            break
        string.append(byte)
    reader.put(len(string), *string)


def read_path(reader):
    """"verb count (U32), UB[3] per verb, width, SB[width] per coordinate, with
    nothing skipped between. The width stands even without coordinates." """
    count = reader.count(0)
    verbs = [reader.unsigned(3) for _ in range(count)]
    width = reader.width()
    coordinates = sum(COORDINATES[verb] for verb in verbs)
    reader.put(count, *verbs, width)
    reader.put(*[reader.signed(width) for _ in range(coordinates)])


def read_color(reader):
    reader.put(reader.byte(), reader.byte(), reader.byte())


def read_gradient(reader):
    """Chapter 1's GradientColor: alphaCount, colorCount, AlphaStops (position,
    midpoint, opacity), ColorStops (position, midpoint, color). C-24: "Alpha and
    colour stops are at most 4,096 each." """
    alphas = reader.count(0)
    colors = reader.count(0)
    reader.put(alphas, colors)
    for _ in range(alphas):
        reader.put(reader.u16(), reader.u16(), reader.byte())
    for _ in range(colors):
        reader.put(reader.u16(), reader.u16())
        read_color(reader)


def read_dashes(reader):
    """The last three rows of 23: "dashLength = UB[3] + 1"; then a flag, and one
    more "if dashOffsetFlag.exist = 1". """
    length, exist = reader.unsigned(3) + 1, reader.unsigned(1)
    reader.put(length, exist)
    if exist:
        reader.put(reader.unsigned(1))


def read_item(reader, data_type):
    """One item of the given data type, its numbers put to the values."""
    if data_type == 'U32':
        reader.put(reader.u32())
    elif data_type == 'I32':
        reader.put(reader.i32())
    elif data_type == 'Time':
        reader.put(reader.u64())
    elif data_type == 'byte':
        reader.put(reader.byte())
    elif data_type == 'Color':
        read_color(reader)
    elif data_type == 'Ratio':
        reader.put(reader.i32())
        reader.put(reader.u32())
    elif data_type == 'Float':
        read_float(reader)
    elif data_type == 'Point':
        read_float(reader)      # x
        read_float(reader)      # y
    elif data_type == 'Bool':
        read_bool(reader)
    elif data_type == 'Path':
        read_path(reader)
    elif data_type == 'GradientColor':
        read_gradient(reader)
    elif data_type == 'dashes':
        read_dashes(reader)
    else:
        read_listed(reader, data_type)


def read_interpolations(reader, frames):
    """"UB[2] per frame (1 linear, 2 Bezier, 3 hold)"; 0 is 16."""
    interpolations = []
    for _ in range(frames):
        interpolation = reader.unsigned(2)
        if interpolation == 0:
            raise Fault(16)
        interpolations.append(interpolation)
    reader.put(*interpolations)
    return interpolations


def easing_numbers(kind, data_type):
    """How many numbers a Bezier frame's easing has. Chapter 5: a
    MultiDimension attribute has a curve for each component of its data type,
    two for a Point; every other kind has one. A curve is four numbers."""
    return 8 if (kind, data_type) == ('MultiDimension', 'Point') else 4


def read_frame_values(reader, kind, data_type, count):
    """"Values: Floats in turn; Bools one bit each; bytes as a width, then
    UB[width] each, at most 255; Paths in turn." By chapter 5 Colors,
    GradientColors and Points in turn, too; but Points of a Spatial attribute
    have their components as a width and unsigned fields."""
    if (kind, data_type) == ('Spatial', 'Point'):
        width = reader.width()
        reader.put(width, *[reader.unsigned(width) for _ in range(2 * count)])
    elif data_type == 'Bool':
        reader.put(*[reader.unsigned(1) for _ in range(count)])
    elif data_type == 'byte':
        width = reader.width()
        reader.put(width)
        for _ in range(count):
            value = reader.unsigned(width)
            if value > 255:
                raise Fault(16)
            reader.put(value)
    else:
        for _ in range(count):
            read_item(reader, data_type)


def read_spatial(reader, frames):
    """C-12: "spatial flags, width and list form one part". Chapter 5: two flags
    a frame, whether it has spatialIn and spatialOut; x and y of each that is
    there, frame by frame. The source's readBits is signed, as in the easing."""
    flags = [reader.unsigned(1) for _ in range(2 * frames)]
    width = reader.width()
    reader.put(*flags, width)
    reader.put(*[reader.signed(width) for _ in range(2 * sum(flags))])


def read_keyframed(reader, kind, data_type, flag):
    """"Keyframed content (animatable set), with n frames". "Each of these five
    parts starts on a whole byte." C-12: they "become six", the sixth "present
    only when hasSpatial is set". """
    frames = reader.count(1)
    reader.put(frames)
    interpolations = []
    if kind != 'Discrete':
        reader.align()
        interpolations = read_interpolations(reader, frames)
    reader.align()
    for _ in range(frames + 1):
        reader.put(reader.u64())
    reader.align()
    read_frame_values(reader, kind, data_type, frames + 1)
    reader.align()
    width = reader.width()      # "The width stands always, Discrete included"
    reader.put(width)
    for _ in range(easing_numbers(kind, data_type) * interpolations.count(BEZIER)):
        reader.put(reader.signed(width))
    if flag >= 4:
        reader.align()
        read_spatial(reader, frames)


def read_flags(reader, kind):
    """The flags of one attribute as exist + 2 × animatable; "Fixed gives 1".
    C-12: "A set hasSpatial adds 4 to the flag number". """
    if kind == 'Fixed':
        return 1
    exist = reader.unsigned(1)
    if not exist or kind not in PROPERTIES:
        return exist
    animatable = reader.unsigned(1)
    if not animatable or kind != 'Spatial':
        return exist + 2 * animatable
    return exist + 2 * animatable + 4 * reader.unsigned(1)


def read_content(reader, kind, data_type, flag):
    """Every content starts on a whole byte. C-24: "listed tags come last", so
    the content of a TagBlock is not among the values."""
    if flag == 0 or kind == 'BitFlag' or data_type == 'TagBlock':
        return
    reader.align()
    if flag == 1:
        read_item(reader, data_type)
    else:
        read_keyframed(reader, kind, data_type, flag)


def read_block(reader, attributes):
    """"flags of all attributes in order as bits, then contents in order" """
    flags = [read_flags(reader, kind) for _, kind, _ in attributes]
    for (_, kind, data_type), flag in zip(attributes, flags):
        reader.put(flag)
        read_content(reader, kind, data_type, flag)


def read_fonts(reader):
    """"1: count U32, then two Strings each." """
    count = reader.count(0)
    reader.put(count)
    for _ in range(count):
        read_string(reader)
        read_string(reader)


def has_list(code, values):
    """Does a container with these values have a tag list? The flag of
    ShapeGroup's last attribute says it: chapter 4, "exist" of a Custom
    attribute. The others always have one."""
    return code != SHAPE_GROUP or values[-1] == 1


def read_own(order, code, body):
    """A reader that has taken a container's own part, and stands where its list
    starts: on a whole byte. Without a list the body is used up there."""
    reader = BodyReader(order, body)
    if code == SHAPE_GROUP:
        read_block(reader, BLOCKS[code])
    else:
        for data_type in ITEMS[code]:
            read_item(reader, data_type)
    reader.align()
    if not has_list(code, reader.values) and reader.bytes_left():
        raise Fault(18)
    return reader


def read_leaf(order, code, body):
    """The values of a read tag that is no container."""
    reader = BodyReader(order, body)
    if code in BLOCKS:
        read_block(reader, BLOCKS[code])
    elif code == 1:
        read_fonts(reader)
    else:
        for data_type in ITEMS.get(code, ()):
            read_item(reader, data_type)
    reader.align()              # "also at a body's end"; decision 4: 15, then 18
    if reader.bytes_left():
        raise Fault(18)
    return reader.values


def read_body(order, code, body):
    """The values of a body alone, at level 1023. For a container they are those
    of its own part; its list is not looked at."""
    if code not in COVERED:
        return ('values', packed_values(body))
    if code == 0 and body:
        return ('fault', 10)
    try:
        if code in CONTAINERS:
            return ('values', read_own(order, code, body).values)
        return ('values', read_leaf(order, code, body))
    except Fault as fault:
        return ('fault', fault.reason)


def little_endian(data, place, size):
    return int.from_bytes(data[place:place + size], 'little')


class FileReader:
    """A walk of the tag lists of one file at one level and in one order, for a
    table with its opaque bodies in one form."""

    def __init__(self, level, order, data, form):
        self.level, self.order, self.data, self.form = level, order, data, form
        self.table = [data[8]]
        self.rows = []

    def header(self, place, end, depth):
        """"at one tag header 6 to 10 and then 12 in this order"; C-11: "8 is no
        longer given; the order of the others stays" """
        if end - place < 2:
            raise Refusal(6, place)
        number = little_endian(self.data, place, 2)
        code, length, size = number // 64, number % 64, 2
        if length == LONG_LENGTH:
            size = 6
            if end - place < size:
                raise Refusal(6, place)
            length = little_endian(self.data, place + 2, 4)
        if length > end - place - size:
            raise Refusal(9, place)
        if code == 0 and length > 0:
            raise Refusal(10, place)
        if self.is_container(code) and depth == TOP_DEPTH:
            raise Refusal(12, place)
        return code, size, length

    def is_container(self, code):
        return code in CONTAINERS and tag_is_read(self.level, code)

    def tag_list(self, place, end, depth, container):
        """"A tag list ends with End: code 0, length 0. The list must fill its
        room exactly." container is its place, None at depth 0."""
        while True:
            if place == end:
                raise Refusal(7, end if container is None else container)
            code, size, length = self.header(place, end, depth)
            self.rows.append([depth, code, place, size, length])
            self.tag(code, place, size, length, depth)
            place += size + length
            if code == 0:
                break
        if place != end:
            raise Refusal(11, place if container is None else container)

    def tag(self, code, place, size, length, depth):
        """The numbers of one tag; "a container's children follow it"."""
        start, end = place + size, place + size + length
        body = self.data[start:end]
        state = tag_state(tag_is_read(self.level, code), size, length)
        try:
            if not tag_is_read(self.level, code):
                self.put_tag(code, state, self.form.values(body))
            elif code in CONTAINERS:
                own = read_own(self.order, code, body)
                self.put_tag(code, state, own.values)
                if has_list(code, own.values):
                    self.tag_list(start + own.bit // 8, end, depth + 1, place)
            else:
                self.put_tag(code, state, read_leaf(self.order, code, body))
        except Fault as fault:
            raise Refusal(fault.reason, place) from None

    def put_tag(self, code, state, values):
        self.table += [code, state, len(values)]
        self.table.extend(values)


def check_file_header(data):
    """"1 to 5 are tried in this order.": 2 to 5 here."""
    if len(data) < 9:
        raise Refusal(2)
    if data[0:3] != b'PAG':
        raise Refusal(3)
    if data[3] != 1:
        raise Refusal(4)
    if little_endian(data, 4, 4) != len(data) or len(data) > FILE_LIMIT:
        raise Refusal(5)


def read(level, order, data, form=PACKED_FORM):
    """('table', numbers, tag rows) or ('refused', reason, number); the rooms
    (19) are the caller's."""
    data = bytes(data)
    try:
        check_call(order, level)
        check_file_header(data)
        reader = FileReader(level, order, data, form)
        reader.tag_list(9, len(data), 0, None)
    except Refusal as refusal:
        return ('refused', refusal.reason, refusal.number)
    return ('table', reader.table, reader.rows)


def read_plain(level, order, data):
    """The same with the table of document 01."""
    return read(level, order, data, PLAIN_FORM)


# ---------------------------------------------------------------- writing

def no_file():
    """"writer: no file at this level has this table" """
    return Refusal(20)


class Numbers:
    """A slice of the table, taken number by number."""

    def __init__(self, numbers, place=0):
        self.numbers = numbers
        self.place = place

    def take(self, least=0, most=WORD - 1):
        if self.place >= len(self.numbers):
            raise no_file()
        number = self.numbers[self.place]
        if not least <= number <= most:
            raise no_file()
        self.place += 1
        return number

    def take_slice(self, count):
        if count > len(self.numbers) - self.place:
            raise no_file()
        self.place += count
        return self.numbers[self.place - count:self.place]

    def used_up(self):
        return self.place == len(self.numbers)


class BodyWriter:
    """A body under way: whole bytes, and the bits of a byte begun: a number
    whose highest bit (high first) or lowest bit (low first) was put first."""

    def __init__(self, order, numbers):
        self.order = order
        self.numbers = Numbers(numbers)
        self.out = bytearray()
        self.begun = 0
        self.begun_bits = 0

    def bits(self, width, value):
        if self.order == HIGH_FIRST:
            self.begun = (self.begun << width) | value
        else:
            self.begun |= value << self.begun_bits
        self.begun_bits += width
        while self.begun_bits >= 8:
            self.begun_bits -= 8
            self.out.append(self.first_byte())

    def first_byte(self):
        """The byte that was put first, taken away from the bits begun."""
        if self.order == HIGH_FIRST:
            byte, self.begun = divmod(self.begun, 1 << self.begun_bits)
        else:
            self.begun, byte = divmod(self.begun, 256)
        return byte

    def align(self):
        """Skipped bits are zero."""
        if self.begun_bits:
            self.bits(8 - self.begun_bits, 0)

    def byte(self, value):
        self.align()
        self.out.append(value)

    def spelled(self, value):
        """The shortest spelling of a U32 or U64."""
        while value > 127:
            self.byte(128 + value % 128)
            value //= 128
        self.byte(value)

    def take(self, least=0, most=WORD - 1):
        return self.numbers.take(least, most)

    def u32(self):
        self.spelled(self.take(most=(1 << 32) - 1))

    def i32(self):
        """Range -2147483647 to 2147483647, d = 2 × magnitude + sign."""
        value = self.take()
        if value >= WORD // 2:
            value -= WORD
        if abs(value) > 2147483647:
            raise no_file()
        self.spelled(2 * abs(value) + (value < 0))

    def count(self, least):
        number = self.take(least, TOP_COUNT)
        self.spelled(number)
        return number

    def unsigned(self, width, least=0, most=None):
        top = (1 << width) - 1
        value = self.take(least, top if most is None else min(top, most))
        self.bits(width, value)
        return value

    def signed(self, width):
        value = self.take()
        if value >= WORD // 2:
            value -= WORD
        half = 1 << (width - 1)
        if not -half <= value < half:
            raise no_file()
        self.bits(width, value % (1 << width))

    def width(self):
        width = self.take(1, 32)
        self.bits(5, width - 1)
        return width


def write_string(writer):
    length = writer.take()
    for byte in writer.numbers.take_slice(length):
        if not 1 <= byte <= 255:    # decision 15: a zero byte would end it
            raise no_file()
        writer.byte(byte)
    writer.byte(0)


def write_path(writer):
    count = writer.count(0)
    verbs = [writer.unsigned(3) for _ in range(count)]
    width = writer.width()
    for _ in range(sum(COORDINATES[verb] for verb in verbs)):
        writer.signed(width)


def write_float(writer):
    pattern = writer.take(most=(1 << 32) - 1)
    for byte in pattern.to_bytes(4, 'little'):
        writer.byte(byte)


def write_listed(writer, data_type):
    value = writer.take()
    if value not in LISTED[data_type]:
        raise no_file()
    writer.byte(value)


def write_u16(writer):
    for byte in writer.take(most=65535).to_bytes(2, 'little'):
        writer.byte(byte)


def write_bytes(writer, count):
    for _ in range(count):
        writer.byte(writer.take(most=255))


def write_gradient(writer):
    alphas, colors = writer.count(0), writer.count(0)
    for opacity_or_color, stops in ((1, alphas), (3, colors)):
        for _ in range(stops):
            write_u16(writer)
            write_u16(writer)
            write_bytes(writer, opacity_or_color)


def write_dashes(writer):
    writer.bits(3, writer.take(1, 8) - 1)
    if writer.unsigned(1):
        writer.unsigned(1)


def write_item(writer, data_type):
    if data_type == 'U32':
        writer.u32()
    elif data_type == 'I32':
        writer.i32()
    elif data_type == 'Time':
        writer.spelled(writer.take())
    elif data_type == 'byte':
        write_bytes(writer, 1)
    elif data_type == 'Color':
        write_bytes(writer, 3)
    elif data_type == 'Ratio':
        writer.i32()
        writer.u32()
    elif data_type == 'Float':
        write_float(writer)
    elif data_type == 'Point':
        write_float(writer)
        write_float(writer)
    elif data_type == 'Bool':
        writer.byte(writer.take(most=1))
    elif data_type == 'Path':
        write_path(writer)
    elif data_type == 'GradientColor':
        write_gradient(writer)
    elif data_type == 'dashes':
        write_dashes(writer)
    else:
        write_listed(writer, data_type)


def write_frame_values(writer, kind, data_type, count):
    if (kind, data_type) == ('Spatial', 'Point'):
        width = writer.width()
        for _ in range(2 * count):
            writer.unsigned(width)
    elif data_type == 'Bool':
        for _ in range(count):
            writer.unsigned(1)
    elif data_type == 'byte':
        width = writer.width()
        for _ in range(count):
            writer.unsigned(width, most=255)
    else:
        for _ in range(count):
            write_item(writer, data_type)


def write_spatial(writer, frames):
    there = sum(writer.unsigned(1) for _ in range(2 * frames))
    width = writer.width()
    for _ in range(2 * there):
        writer.signed(width)


def write_keyframed(writer, kind, data_type, flag):
    frames = writer.count(1)
    bezier_frames = 0
    if kind != 'Discrete':
        writer.align()
        for _ in range(frames):
            bezier_frames += writer.unsigned(2, least=1) == BEZIER
    writer.align()
    for _ in range(frames + 1):
        writer.spelled(writer.take())
    writer.align()
    write_frame_values(writer, kind, data_type, frames + 1)
    writer.align()
    width = writer.width()
    for _ in range(easing_numbers(kind, data_type) * bezier_frames):
        writer.signed(width)
    if flag >= 4:
        writer.align()
        write_spatial(writer, frames)


def write_content(writer, kind, data_type, flag):
    if flag == 0 or kind == 'BitFlag' or data_type == 'TagBlock':
        return
    writer.align()
    if flag == 1:
        write_item(writer, data_type)
    else:
        write_keyframed(writer, kind, data_type, flag)


# The flags that a flag number stands for, by kind: as many bits as it has.
FLAGS_BY_KIND = {'BitFlag': {0: (0,), 1: (1,)}, 'Value': {0: (0,), 1: (1,)}, 'Custom': {0: (0,), 1: (1,)}, 'Fixed': {1: ()},
                 'Simple': {0: (0,), 1: (1, 0), 3: (1, 1)},
                 'Discrete': {0: (0,), 1: (1, 0), 3: (1, 1)},
                 'MultiDimension': {0: (0,), 1: (1, 0), 3: (1, 1)},
                 'Spatial': {0: (0,), 1: (1, 0), 3: (1, 1, 0), 7: (1, 1, 1)}}


def write_block(writer, attributes):
    """The table gives flags and content attribute by attribute; the file gives
    all flags first. So the contents go to a writer of their own: they start
    on a whole byte."""
    contents = BodyWriter(writer.order, ())
    contents.numbers = writer.numbers
    for _, kind, data_type in attributes:
        flag = writer.take()
        if flag not in FLAGS_BY_KIND[kind]:
            raise no_file()
        for bit in FLAGS_BY_KIND[kind][flag]:
            writer.bits(1, bit)
        write_content(contents, kind, data_type, flag)
    writer.align()
    contents.align()
    writer.out += contents.out


def write_fonts(writer):
    for _ in range(writer.count(0)):
        write_string(writer)
        write_string(writer)


def write_values(order, code, values):
    """The body, or a container's own part, that reads as these values."""
    writer = BodyWriter(order, values)
    if code in BLOCKS:
        write_block(writer, BLOCKS[code])
    elif code == 1:
        write_fonts(writer)
    else:
        for data_type in ITEMS.get(code, ()):
            write_item(writer, data_type)
    writer.align()
    if not writer.numbers.used_up():
        raise no_file()
    return bytes(writer.out)


def write_tag_header(code, length, claimed):
    """C-11: a table that claims the 2 gets the long header, but "for a body of
    63 or more" it "is impossible (20)"; without it the length decides."""
    if (claimed and length >= LONG_LENGTH) or length > FILE_LIMIT:
        raise no_file()
    if length < LONG_LENGTH and not claimed:
        return (code * 64 + length).to_bytes(2, 'little')
    return (code * 64 + LONG_LENGTH).to_bytes(2, 'little') + length.to_bytes(4, 'little')


def write_list(level, order, numbers, depth, form):
    """The bytes of one tag list, its End included."""
    out = bytearray()
    while True:
        code = numbers.take(most=1023)
        is_read = tag_is_read(level, code)
        claimed, read_state = divmod(numbers.take(most=3), 2)
        if read_state != is_read:
            raise no_file()
        values = numbers.take_slice(numbers.take())
        if not is_read:
            body = form.body(values)
        else:
            body = write_values(order, code, values)
        if is_read and code in CONTAINERS:
            if depth == TOP_DEPTH:
                raise no_file()
            if has_list(code, values):
                body += write_list(level, order, numbers, depth + 1, form)
        out += write_tag_header(code, len(body), claimed) + body
        if code == 0:
            return bytes(out)


def write(level, order, table, form=PACKED_FORM):
    """('file', bytes) or ('refused', 1, 24 or 20, 0); the output's room (21)
    is the caller's. "the whole lent table slice is the table" """
    numbers = Numbers(table)
    try:
        check_call(order, level)
        compression = numbers.take(most=255)
        tags = write_list(level, order, numbers, 0, form)
        length = 9 + len(tags)
        if not numbers.used_up() or length > FILE_LIMIT:
            raise no_file()
    except Refusal as refusal:
        return ('refused', refusal.reason, refusal.number)
    header = b'PAG\x01' + length.to_bytes(4, 'little') + bytes([compression])
    return ('file', header + tags)


def write_plain(level, order, table):
    """The same from the table of document 01."""
    return write(level, order, table, PLAIN_FORM)


# ---------------------------------------------------------------- listing

def tag_lines(table, rows):
    """"per tag depth, place, header size, body length, code, state, values"
    of a packed table. C-17: "the listing keeps printing one byte a field" """
    for (depth, code, place, size, length), tag in zip(rows, tags_of(unpack(table)), strict=True):
        assert tag[0] == code
        yield [depth, place, size, length, code, tag[1], *tag[2]]


def listing(data):
    """The listing program's output for these bytes of standard input: "the
    programs are high first". C-17: "19 counts packed numbers" """
    if len(data) > LISTING_BYTES:
        return 'too long\n'
    answer = read(TOP_LEVEL, HIGH_FIRST, data)
    if answer[0] == 'table' and len(answer[1]) > LISTING_NUMBERS:
        answer = ('refused', 19, len(answer[1]))
    if answer[0] == 'refused':
        records = [answer]
    else:
        records = [['PAG', data[3], len(data), data[8]]]
        records += tag_lines(answer[1], answer[2])
    return ''.join('\t'.join(map(str, record)) + '\n' for record in records)


# ---------------------------------------------------------------- the tally

HEADER_BYTES = 9                    # C-19: "and 9 to the header count"
FULL_HEADERS = 9000000              # "header count 9,000,000 or more"
FULL_COUNT = 16777216000000         # "a count above 16,777,216,000,000"


def own_bytes(data, rows):
    """{code: bytes} of an accepted file: each byte is painted with the code of
    the innermost tag that has it, since "a container's children follow it"."""
    painted = [None] * len(data)
    for _, code, place, size, length in rows:
        painted[place:place + size + length] = [code] * (size + length)
    assert painted[:HEADER_BYTES] == [None] * HEADER_BYTES and None not in painted[HEADER_BYTES:]
    counts = {}
    for code in painted[HEADER_BYTES:]:
        counts[code] = counts.get(code, 0) + 1
    return counts


class Tally:
    """"Keep a tally of 1,024 counts that starts at zero, and one count for
    file headers." """

    def __init__(self):
        self.counts, self.headers = [0] * 1024, 0

    def add(self, level, order, data):
        """('accepted', length) or ('refused', reason, number): "25 .., tried
        first; a refusal leaves all counts" """
        if self.headers >= FULL_HEADERS or max(self.counts) > FULL_COUNT:
            return ('refused', 25, 0)
        answer = read(level, order, data)
        if answer[0] == 'refused':
            return answer
        for code, count in own_bytes(data, answer[2]).items():
            self.counts[code] += count
        self.headers += HEADER_BYTES
        return ('accepted', len(data))

    def lines(self):
        """"`header` and its count, then code and count for every count that
        isn't zero, a record a line" """
        yield ['header', self.headers]
        for code, count in enumerate(self.counts):
            if count:
                yield [code, count]


def tally_listing(data):
    """The tally program's output for these bytes of standard input: files "that
    stand one after another .., each as long as its length field says (9 bytes
    if that is less)". Fewer than eight bytes have no length field."""
    tally, place = Tally(), 0
    records = None
    while place < len(data) and records is None:
        size = max(little_endian(data, place + 4, 4), HEADER_BYTES) if len(data) - place >= 8 else 8
        if size > LISTING_BYTES:
            return 'too long\n'
        answer = tally.add(TOP_LEVEL, HIGH_FIRST, data[place:place + size])
        if answer[0] == 'refused':
            records = [answer]
        place += size
    return ''.join('\t'.join(map(str, record)) + '\n' for record in records or tally.lines())
