"""The quantities, choices, readings, answers and refusals of the calls."""

from __future__ import annotations

import enum
from operator import index
from typing import NamedTuple, Optional, SupportsFloat, SupportsIndex

LINE_MAX = 512  # bytes of a request line, with its line feed
ANSWER_MAX = 64  # bytes of an answer line, with its line feed


class Tenths(int):
    """Whole tenths of a decibel: measured values and levels."""


class Decibels(int):
    """Whole decibels: ratings, targets and rounded terms."""


class Fen(int):
    """Whole fen: prices, charges and totals."""


class Kind(enum.IntEnum):
    """What was measured: airborne (A) or impact (I), 16 thirds (3) or 5 octaves (1)."""

    A3 = 0
    A1 = 1
    I3 = 2
    I1 = 3


class Side(enum.IntEnum):
    """Which term decides on a grade: Ctr outside, C inside."""

    OUTSIDE = 0
    INSIDE = 1


class Refusal(enum.IntEnum):
    """Why a call is refused: a number, a name and a sentence.

    >>> Refusal(3), Refusal.READING_MISSING.sentence
    (<Refusal.READING_MISSING: 3>, 'a reading is missing')
    """

    sentence: str

    def __new__(cls, number: int, sentence: str) -> Refusal:
        refusal = int.__new__(cls, number)
        refusal._value_ = number
        refusal.sentence = sentence
        return refusal

    BAND_COUNT = 1, "the number of bands is not the kind's"
    NOT_FINITE = 2, "a float is NaN or infinite"
    READING_MISSING = 3, "a reading is missing"
    BAND_RANGE = 4, "a band value lies outside -20.0 to 150.0 dB"
    BACKGROUND_TOO_NEAR = (
        5, "laboratory rule: the total lies less than 6.0 dB above the background")
    DERIVED_RANGE = 6, "a derived value lies outside -20.0 to 150.0 dB"
    TIME_RANGE = 7, "the reverberation time lies outside 0.10 to 20.00 s"
    TARGET_NOT_BETTER = 8, "the target is not better than the rating"
    TARGET_RANGE = 9, "the target lies outside -100 to 200 dB"
    OUTPUT_TOO_SMALL = (
        10, "the lent output is too small for the answer, or the offset lies beyond its end")
    NOT_A_REQUEST = 11, "the line is not a request, or the key has not a key's shape"
    SPECIMEN_COUNT = 12, "the specimens are not 48 values"
    PRICE_RANGE = 16, "the price lies outside 0 to 1,000,000 fen"
    OTHER_BANDS = 17, "the same customer and key came with another kind or other bands"
    REGISTER_FULL = 18, "there is no room for a new key"
    REGISTER_DAMAGED = 19, "no calls could have left the register so"


class Refused(Exception):
    """A call was refused; what was lent to it is as it was.

    >>> print(Refused(Refusal.READING_MISSING))
    refusal 3: a reading is missing

    The refusal is a Refusal; or a plain number, where the library is newer than this package and
    has refusals that are not known here.
    """

    refusal: int
    sentence: str

    def __init__(self, number: SupportsIndex) -> None:
        super().__init__(number)
        try:
            known = Refusal(index(number))
        except ValueError:
            self.refusal, self.sentence = index(number), "this package does not know what for"
        else:
            self.refusal, self.sentence = known, known.sentence

    def __str__(self) -> str:
        return f"refusal {self.refusal:d}: {self.sentence}"


class Reading(NamedTuple):
    """A band as an analyser gives it: use level, limit and MISSING."""

    mark: SupportsIndex
    value: SupportsFloat


def level(value: SupportsFloat) -> Reading:
    """A reading in decibels. It is taken as the nearest 32-bit float."""
    return Reading(0, value)


def limit(value: SupportsFloat) -> Reading:
    """A reading that stands for "at least" (airborne) or "at most" (impact)."""
    return Reading(1, value)


MISSING = Reading(2, 0.0)


class Value(NamedTuple):
    """A value and whether it is a limit."""

    tenths: Tenths
    limit: bool


class Sheet(NamedTuple):
    """What a rating answers; impact has no second term.

    A term is worked out in tenths and rounded to a whole decibel, a half to the even one (GB 8170).
    """

    rating: Decibels
    first: Decibels
    second: Optional[Decibels]
    shifts: int
    limit: bool


class Billed(NamedTuple):
    """What a call on a register answers; nothing is charged for a key that was charged before."""

    sheet: Sheet
    charged: Fen


class Cover(NamedTuple):
    """The improvement by a floor cover."""

    improvement: Decibels
    term: Decibels
    limit: bool


class Bands(NamedTuple):
    """Band values worked out from others, and their limit marks."""

    values: tuple[Tenths, ...]
    marks: int


class Grade(NamedTuple):
    """The grade of a door or window, 0 to 6, and what decides on it."""

    rating: Decibels
    c: Decibels
    ctr: Decibels
    deciding: Decibels
    grade: int
    limit: bool


class Progress(NamedTuple):
    """How far a block of lines got."""

    used: int
    wrote: int
    skipping: bool
