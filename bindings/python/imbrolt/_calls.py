"""The calls, apart from those on a register."""

from __future__ import annotations

from typing import BinaryIO, Iterable, Iterator, SupportsFloat, SupportsIndex

from ._arguments import (
    BytesLike, WritableBytes, band_values, decibels, given, kind_of, lent, mark_and_value,
    marks_and_values, marks_of, offset_of, real, side_of, tenths)
from ._library import answer, functions, u16
from ._types import Bands, Cover, Decibels, Grade, Progress, Reading, Sheet, Tenths, Value

LIFT_PLACES = 696  # of the list for thirds; octaves need fewer
BLOCK = 65536  # bytes of a stream taken, and of answers handed on, at a time


# From the numbers of an answer to what it is.

def value_of(numbers: list[int]) -> Value:
    tenth, is_limit = numbers
    return Value(Tenths(tenth), bool(is_limit))


def sheet_of(numbers: list[int]) -> Sheet:
    rating, first, second, has_second, shifts, is_limit = numbers
    return Sheet(Decibels(rating), Decibels(first), Decibels(second) if has_second else None,
                 shifts, bool(is_limit))


def bands_of(numbers: list[int]) -> Bands:
    *values, marks = numbers
    return Bands(tuple(map(Tenths, values)), marks)


# The calls.

def version() -> int:
    """The library's version: 10000 times its first part, 100 times the second, and the third."""
    return functions()["version"]()


def take_reading(reading: Reading) -> Value:
    """Takes in one reading: its tenths, a tie going to the greater, and its mark."""
    return value_of(answer("take_reading", *mark_and_value(reading)))


def rate(kind: SupportsIndex, values: Iterable[SupportsIndex], marks: SupportsIndex = 0) -> Sheet:
    """Rates a set of bands in tenths, from the lowest."""
    return sheet_of(answer("rate", kind_of(kind), *band_values(values), marks_of(marks)))


def rate_readings(kind: SupportsIndex, readings: Iterable[Reading]) -> Sheet:
    """Rates readings, from the lowest band."""
    return sheet_of(answer("rate_readings", kind_of(kind), *marks_and_values(readings)))


def cover(values: Iterable[SupportsIndex], marks: SupportsIndex = 0) -> Cover:
    """Rates the improvement by a floor cover: 16 thirds in tenths."""
    improvement, term, is_limit = answer("cover", *band_values(values), marks_of(marks))
    return Cover(Decibels(improvement), Decibels(term), bool(is_limit))


def correct_field(total: SupportsIndex, background: SupportsIndex) -> Value:
    """Corrects a level in tenths for background noise by the field rule."""
    return value_of(answer("correct_field", tenths(total), tenths(background)))


def correct_laboratory(total: SupportsIndex, background: SupportsIndex) -> Tenths:
    """Corrects a level in tenths for background noise by the laboratory rule."""
    (level,) = answer("correct_laboratory", tenths(total), tenths(background))
    return Tenths(level)


def standardized(source: SupportsFloat, receiving: SupportsFloat, background: SupportsFloat,
                 time: SupportsFloat) -> Value:
    """The standardized level difference of one raw band: decibels, and seconds for the time."""
    return value_of(answer("standardized", *map(real, (source, receiving, background, time))))


def octaves(values: Iterable[SupportsIndex], marks: SupportsIndex = 0) -> Bands:
    """The 5 octaves of 16 thirds in tenths."""
    return bands_of(answer("octaves", *band_values(values), marks_of(marks)))


def specimens(readings: Iterable[Reading]) -> Bands:
    """The band means of three specimens: 48 readings, specimen after specimen."""
    return bands_of(answer("specimens", *marks_and_values(readings)))


def grade(side: SupportsIndex, readings: Iterable[Reading]) -> Grade:
    """The grade of a door or window from three specimens, given as for specimens."""
    rating, c, ctr, deciding, number, is_limit = answer(
        "grade", side_of(side), *marks_and_values(readings))
    return Grade(Decibels(rating), Decibels(c), Decibels(ctr), Decibels(deciding), number,
                 bool(is_limit))


def lift(kind: SupportsIndex, values: Iterable[SupportsIndex], target: SupportsIndex) -> list[int]:
    """The smallest sets of 1 to 3 bands to lift for a better rating, as masks, bit 0 the lowest.

    The values are tenths, the target is decibels.
    """
    masks = (u16 * LIFT_PLACES)()
    (count,) = answer("lift", kind_of(kind), *band_values(values), 0, decibels(target), masks,
                      LIFT_PLACES)
    return masks[:count]


def answer_line(request: BytesLike, output: WritableBytes, at: SupportsIndex = 0) -> int:
    """Answers one request line into a bytearray from a place on; the length of the answer.

    >>> output = bytearray(64)
    >>> length = answer_line(b"A1\\tK2\\t24.0\\t33.0\\t40.0\\t43.0\\t44.0\\n", output)
    >>> bytes(output[:length])
    b'A1\\tK2\\t0\\t42\\t-2\\t-6\\t0\\t=\\n'
    """
    (wrote,) = answer("answer_line", *given(request), *lent(output), offset_of(at))
    return wrote


def answer_block(data: BytesLike, output: WritableBytes, skipping: bool = False,
                 last: bool = False) -> Progress:
    """Answers the whole lines of a block of a stream for which a bytearray has room.

    Hand the bytes that it did not use in again, at the front of the next block, with the skipping
    of this one; last says that the stream ends with this block.
    """
    used, wrote, skips = answer(
        "answer_block", *given(data), bool(skipping), bool(last), *lent(output))
    return Progress(used, wrote, bool(skips))


def answers(stream: BinaryIO) -> Iterator[bytes]:
    """The answers to all lines of a binary stream, in pieces."""
    rest, skipping, last = b"", False, False
    output = bytearray(BLOCK)
    while not last:
        data = stream.read(BLOCK)
        if data is None:
            raise BlockingIOError("the stream does not wait for what is still to come")
        rest, last = rest + data, not data
        used = wrote = 1
        while used or wrote:
            used, wrote, skipping = answer_block(rest, output, skipping, last)
            rest = rest[used:]
            if wrote:
                yield bytes(output[:wrote])
