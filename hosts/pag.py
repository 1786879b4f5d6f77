"""PAG files in Python: the library of include/pag.h, by ctypes over libpag.so, which hosts/build makes. One file, nothing but the standard library.

A file is bytes, or a path to it. Its table is a row of 64-bit numbers, its tag table a row of tags. What the library refuses is an exception, `Refused`, that
carries the reason, its number and its words. The rules of the calls stand in include/pag.h: level, bit order, the state of a tag, packed bodies.

>>> p2 = bytes.fromhex('50 41 47 01 13 00 00 00 00 C6 01 FF 80 00 80 0A 03 00 00')
>>> read(p2)
[0, 7, 1, 5, 255, 128, 0, 640, 18446744073709551615, 0, 1, 0]
>>> read(p2, level=6)
[0, 7, 0, 2, 6, 3343632072959, 0, 1, 0]
>>> for tag in tags(p2): print(tag)
Tag(depth=0, code=7, place=9, header_size=2, body_length=6)
Tag(depth=0, code=0, place=17, header_size=2, body_length=0)
>>> write(read(p2)) == p2
True
>>> read(p2[:-2])
Traceback (most recent call last):
    ...
pag.Refused: length field wrong, or over the limit (reason 5, number 0)
"""

from __future__ import annotations

import ctypes
import os
from array import array
from collections.abc import Sequence
from typing import Any, Callable, NamedTuple, Union

__all__ = ['FILE_MAX', 'HIGH_FIRST', 'LEVEL_MAX', 'LOW_FIRST', 'Field', 'Refused', 'Tag', 'bits', 'body', 'read', 'single', 'table', 'tag_table', 'tags', 'write']

File = Union[bytes, bytearray, memoryview, str, 'os.PathLike[str]', 'os.PathLike[bytes]']

LEVEL_MAX = 1023
HIGH_FIRST = 0
LOW_FIRST = 1
FILE_MAX = 16777216
# No file has a table of more numbers: at most 8 for each byte.
TABLE_MAX = 8 * FILE_MAX

ACCEPTED, TABLE_TOO_SHORT, OUTPUT_TOO_SHORT = 0, 19, 21
WORDS = {
    1: 'level above 1023',
    2: 'fewer than 9 bytes',
    3: 'signature wrong',
    4: 'version not 1',
    5: 'length field wrong, or over the limit',
    6: "a header has begun and the end of its list's room cuts it",
    7: 'list room is used up without End',
    9: "body longer than the list's rest",
    10: 'End with a body',
    11: 'bytes after End',
    12: 'container at depth 8',
    13: 'an item runs past the body',
    14: 'spelling of U32, U64, I32',
    15: 'skipped bit not zero',
    16: 'unlisted enum, Bool, interpolation 0, byte value over 255',
    17: 'count outside its range',
    18: 'body of a read tag not used up',
    19: 'table too short',
    20: 'no file at this level has this table',
    21: 'output too short',
    24: 'the bit order is neither',
    29: 'a step beyond those that a single holds',
}


class Refused(ValueError):
    """What the library refused: `reason`, `number` (a place in the file, or what include/pag.h says for the reason) and the reason's `words`.

    >>> try: tags(b'PAX' + bytes(8))
    ... except Refused as why: print(why.reason, why.number, why.words)
    3 0 signature wrong
    """

    def __init__(self, reason: int, number: int) -> None:
        self.reason = reason
        self.number = number
        self.words = WORDS.get(reason, 'refused')
        super().__init__('%s (reason %d, number %d)' % (self.words, reason, number))

    def __reduce__(self) -> tuple[type, tuple[int, int]]:
        return type(self), (self.reason, self.number)


class Tag(NamedTuple):
    """A row of the tag table. `place` counts bytes from the file's start; the body starts at place + header_size."""

    depth: int
    code: int
    place: int
    header_size: int
    body_length: int


class Field(NamedTuple):
    """A bit field: its value, and the place of the next one."""

    value: int
    place: int


# ------------------------------------------------------------ the library

class _Answer(ctypes.Structure):
    _fields_ = [('reason', ctypes.c_uint32), ('number', ctypes.c_uint64)]


class _Field(ctypes.Structure):
    _fields_ = [('reason', ctypes.c_uint32), ('value', ctypes.c_uint64), ('place', ctypes.c_uint64)]


def _load() -> ctypes.CDLL:
    """The library that PAG_LIBRARY names, or else the one beside this file, or the one that hosts/build made."""
    here = os.path.dirname(os.path.abspath(__file__))
    places = [os.path.join(here, 'libpag.so'), os.path.join(os.path.dirname(here), 'target', 'host', 'libpag.so')]
    found = os.environ.get('PAG_LIBRARY') or next((place for place in places if os.path.exists(place)), None)
    if not found:
        raise ImportError('there is no libpag.so: run hosts/build, or name it by PAG_LIBRARY')
    try:
        return ctypes.CDLL(os.path.abspath(found))
    except OSError as why:
        raise ImportError('libpag.so cannot be loaded: %s' % why) from None


_library = _load()
_U32, _U64 = ctypes.c_uint32, ctypes.c_uint64
# A slice is an address and a count of elements: of bytes that are only read, and of an array's items.
_BYTES = (ctypes.c_char_p, ctypes.c_size_t)
_ITEMS = (ctypes.c_void_p, ctypes.c_size_t)


def _call(name: str, answer: type, *parameters: Any) -> Any:
    """A function of pag.h: its name, its answer, and its parameters in their order."""
    function = getattr(_library, name)
    function.restype, function.argtypes = answer, parameters
    return function


_pag_read = _call('pag_read', _Answer, _U32, _U32, *_BYTES, *_ITEMS)
_pag_tags = _call('pag_tags', _Answer, _U32, _U32, *_BYTES, *_ITEMS)
_pag_write = _call('pag_write', _Answer, _U32, _U32, *_ITEMS, *_ITEMS)
_pag_bits = _call('pag_bits', _Field, _U32, *_BYTES, _U64, _U32, _U32)
_pag_single = _call('pag_single', _Answer, ctypes.c_int64)


def _filled(call: Callable[..., Any], typecode: str, *given: Any) -> array[int]:
    """What a call fills that takes its room last. The first call has no room, and tells what is needed."""
    asked = call(*given, None, 0)
    if asked.reason not in (TABLE_TOO_SHORT, OUTPUT_TOO_SHORT):
        raise Refused(asked.reason, asked.number)
    room: array[int] = array(typecode, [0]) * asked.number
    answer = call(*given, *_slice(room))
    if answer.reason != ACCEPTED:
        raise Refused(answer.reason, answer.number)
    return room


def _slice(items: array[int]) -> tuple[int, int]:
    return items.buffer_info()


def _sized(data: bytes) -> tuple[bytes, int]:
    return data, len(data)


# ------------------------------------------------------------ what a caller gives

def _number(name: str, given: int, width: int) -> int:
    """A number that fits its C type. What the paper refuses, a level of 1024 for one, the library refuses."""
    if not isinstance(given, int) or isinstance(given, bool):
        raise TypeError('%s is a number, and not %s' % (name, type(given).__name__))
    if not 0 <= given < 1 << width:
        raise ValueError('%s is a number from 0 to %d, and not %d' % (name, (1 << width) - 1, given))
    return given


def _how(level: int, order: int) -> tuple[int, int]:
    return _number('level', level, 32), _number('order', order, 32)


def _bytes(file: File) -> bytes:
    """The bytes of a file. Of what lies at a path no more than one byte over the limit is read, which is enough to have it refused."""
    if isinstance(file, (bytes, bytearray, memoryview)):
        return bytes(file)
    if not isinstance(file, (str, os.PathLike)):
        raise TypeError('a file is bytes or a path, and not %s' % type(file).__name__)
    with open(file, 'rb') as opened:
        return opened.read(FILE_MAX + 1)


def _numbers(given: Sequence[int]) -> array[int]:
    """A table of the caller as an array of our own, which no other thread can change while a call reads it."""
    if isinstance(given, (str, bytes, bytearray, memoryview)) or not isinstance(given, (Sequence, array)):
        raise TypeError('a table is a row of numbers, and not %s' % type(given).__name__)
    if len(given) > TABLE_MAX:
        raise ValueError('a table has at most %d numbers, and not %d' % (TABLE_MAX, len(given)))
    try:
        return array('Q', given)
    except (TypeError, OverflowError):
        return array('Q', [_number('number %d of a table' % i, number, 64) for i, number in enumerate(given)])


# ------------------------------------------------------------ the calls

def read(file: File, level: int = LEVEL_MAX, order: int = HIGH_FIRST) -> list[int]:
    """The numbers of a file's table: the compression byte, then of each tag its code, its state, the count of its values, and the values.

    >>> read(bytes.fromhex('50 41 47 01 0B 00 00 00 00 00 00'))
    [0, 0, 1, 0]
    """
    return table(file, level, order).tolist()


def table(file: File, level: int = LEVEL_MAX, order: int = HIGH_FIRST) -> array[int]:
    """The numbers of `read` as an array: eight bytes each, where a list takes up to 44."""
    return _filled(_pag_read, 'Q', *_how(level, order), *_sized(_bytes(file)))


def tags(file: File, level: int = LEVEL_MAX, order: int = HIGH_FIRST) -> list[Tag]:
    """A row for each tag, in file order.

    >>> tags(bytes.fromhex('50 41 47 01 0B 00 00 00 00 00 00'))
    [Tag(depth=0, code=0, place=9, header_size=2, body_length=0)]
    """
    rows = tag_table(file, level, order)
    return [Tag(*rows[i:i + 5]) for i in range(0, len(rows), 5)]


def tag_table(file: File, level: int = LEVEL_MAX, order: int = HIGH_FIRST) -> array[int]:
    """The rows of `tags` as one array: five numbers a tag."""
    return _filled(_pag_tags, 'I', *_how(level, order), *_sized(_bytes(file)))


def write(table: Sequence[int], level: int = LEVEL_MAX, order: int = HIGH_FIRST) -> bytes:
    """The one file that is read as this table at this level and in this order.

    >>> write([0, 0, 1, 0]).hex(' ')
    '50 41 47 01 0b 00 00 00 00 00 00'
    >>> write([0, 0, 1])
    Traceback (most recent call last):
        ...
    pag.Refused: no file at this level has this table (reason 20, number 0)
    """
    numbers = _numbers(table)
    return _filled(_pag_write, 'B', *_how(level, order), *_slice(numbers)).tobytes()


def bits(data: Union[bytes, bytearray, memoryview], place: int, width: int, signed: bool = False, order: int = HIGH_FIRST) -> Field:
    """The bit field at a place of some bytes, which counts bits: UB[width], or SB[width] as a negative number where it is one.

    >>> bits(b'\\x5A\\x92', 0, 6)
    Field(value=22, place=6)
    >>> bits(b'\\x5A\\x92', 6, 5, signed=True)
    Field(value=-12, place=11)
    """
    if not isinstance(data, (bytes, bytearray, memoryview)):
        raise TypeError('bit fields are taken from bytes, and not from %s' % type(data).__name__)
    field = _pag_bits(_number('order', order, 32), *_sized(bytes(data)), _number('place', place, 64), _number('width', width, 32), bool(signed))
    if field.reason != ACCEPTED:
        raise Refused(field.reason, 0)
    return Field(field.value - (1 << 64) if signed and field.value >> 63 else field.value, field.place)


def single(step: int) -> int:
    """The single-precision value of a path step as its 32 bits: the step times the single nearest to 0.05, rounded once (C-23). A number of a table from 2^63 on is
    a negative step.

    >>> hex(single(1)), hex(single(-20)), single(0)
    ('0x3d4ccccd', '0xbf800000', 0)
    >>> single(2 ** 64 - 20) == single(-20)
    True
    >>> single(16777217)
    Traceback (most recent call last):
        ...
    pag.Refused: a step beyond those that a single holds (reason 29, number 0)
    """
    if isinstance(step, bool) or not isinstance(step, int):
        raise TypeError('a step is a number, and not %s' % type(step).__name__)
    if not -(1 << 63) <= step < 1 << 64:
        raise ValueError('a step is a number from -2^63 up to 2^64 - 1')
    answer = _pag_single(step - (1 << 64) if step >> 63 == 1 else step)
    if answer.reason != ACCEPTED:
        raise Refused(answer.reason, answer.number)
    return answer.number


def body(values: Sequence[int]) -> bytes:
    """The body of an opaque tag, copied out of its values: its length, and then eight bytes to a number, the lowest first.

    >>> body([6, 3343632072959]).hex(' ')
    'ff 80 00 80 0a 03'
    """
    numbers = _numbers(values)
    if len(numbers) == 0 or numbers[0] > 8 * (len(numbers) - 1):
        raise ValueError('these are not the values of an opaque tag')
    return b''.join(number.to_bytes(8, 'little') for number in numbers[1:])[:numbers[0]]
