"""From Python's numbers and bytes to those of the calls.

Whole numbers are what operator.index takes for such: none is cut from a float or read from a text.
ctypes would cut off what does not fit into 32 bits, so such numbers are first drawn to the nearest
that does: no call accepts it either.
"""

from __future__ import annotations

import math
import sys
from operator import index
from typing import Any, Iterable, SupportsFloat, SupportsIndex, Union

from ._library import f32, i32, u8
from ._types import Decibels, Fen, Reading, Tenths

BytesLike = Union[bytes, bytearray, memoryview]
WritableBytes = Union[bytearray, memoryview]


# Numbers.

def quantity(number: SupportsIndex, wanted: type) -> int:
    """A number of a quantity, which is given plainly or as that quantity."""
    if isinstance(number, (Tenths, Decibels, Fen)) and not isinstance(number, wanted):
        raise TypeError(f"{type(number).__name__} given for {wanted.__name__}")
    return min(max(index(number), -2 ** 31), 2 ** 31 - 1)


def tenths(number: SupportsIndex) -> int:
    return quantity(number, Tenths)


def decibels(number: SupportsIndex) -> int:
    return quantity(number, Decibels)


def price_of(number: SupportsIndex) -> int:
    """A price; what is below 0 becomes one that is out of range too."""
    return quantity(number, Fen) & 0xFFFFFFFF


def customer_of(number: SupportsIndex) -> int:
    """A customer number. There is no refusal for what is none."""
    customer = index(number)
    if not 0 <= customer < 2 ** 64:
        raise OverflowError(f"customer number {customer} does not fit 64 bits")
    return customer


def kind_of(number: SupportsIndex) -> int:
    """A kind; any number that is none is 4."""
    kind = index(number)
    return kind if 0 <= kind <= 3 else 4


def side_of(number: SupportsIndex) -> int:
    return int(index(number) != 0)


def marks_of(number: SupportsIndex) -> int:
    """The marks of a set; there are 16 bands at most."""
    return index(number) & 0xFFFF


def offset_of(number: SupportsIndex) -> int:
    """A place of an output. There is no refusal for one before its front."""
    offset = index(number)
    if offset < 0:
        raise ValueError(f"the offset is {offset}, before the front of the output")
    return min(offset, sys.maxsize)


def real(value: SupportsFloat) -> float:
    """A float; what no float can be is one that every call refuses: infinite where it is too great."""
    if not isinstance(value, SupportsFloat):
        raise TypeError(f"a real number is asked for, not {type(value).__name__}")
    try:
        return float(value)
    except OverflowError:
        return math.inf
    except ValueError:  # a decimal number's signalling NaN
        return math.nan


# Arrays, each with its length.

def band_values(values: Iterable[SupportsIndex]) -> tuple[Any, int]:
    """An array of tenths."""
    numbers = [tenths(value) for value in values]
    return (i32 * len(numbers))(*numbers), len(numbers)


def mark_and_value(reading: Reading) -> tuple[int, float]:
    """The numbers of a reading; any mark that is none is that of a missing one."""
    if not isinstance(reading, Reading):
        raise TypeError(
            f"a reading is asked for, level(24.9) say, not {type(reading).__name__}")
    mark = index(reading.mark)
    return (mark if mark in (0, 1) else 2), real(reading.value)


def marks_and_values(readings: Iterable[Reading]) -> tuple[Any, int, Any, int]:
    """An array of marks and one of floats."""
    pairs = [mark_and_value(reading) for reading in readings]
    count = len(pairs)
    marks = (u8 * count)(*(mark for mark, _ in pairs))
    floats = (f32 * count)(*(value for _, value in pairs))
    return marks, count, floats, count


def bytes_of(data: BytesLike) -> bytes:
    """Bytes as they are now."""
    if isinstance(data, str):
        raise TypeError('bytes are asked for, not text: write b"K2", or text.encode()')
    return memoryview(data).tobytes()


def given(data: BytesLike) -> tuple[Any, int]:
    """Bytes to be read by a call."""
    copy = bytes_of(data)
    return (u8 * len(copy)).from_buffer_copy(copy), len(copy)


def lent(output: WritableBytes) -> tuple[Any, int]:
    """Bytes to be written by a call."""
    view = memoryview(output)
    if view.readonly or view.itemsize != 1:
        raise TypeError("the output has to be bytes that can be written, a bytearray say")
    return (u8 * view.nbytes).from_buffer(view), view.nbytes
