"""Quantities, ranges, kinds, refusals and readings.

Document 01, sections "Quantities and ranges" and "Refusal numbers", with the
numbers that request (x) of document 02 adds.
Measured values are whole tenths of a decibel, ratings and terms whole decibels.
"""

from fractions import Fraction
from math import floor
from typing import NamedTuple

# Section "Refusal numbers".
BAND_COUNT = 1
NOT_FINITE = 2
READING_MISSING = 3
BAND_RANGE = 4
BACKGROUND_TOO_NEAR = 5
DERIVED_RANGE = 6
TIME_RANGE = 7
TARGET_NOT_BETTER = 8
TARGET_RANGE = 9
OUTPUT_TOO_SMALL = 10
NOT_A_REQUEST = 11
SPECIMEN_COUNT = 12

# Document 02, request (x).
PRICE_RANGE = 16
OTHER_BANDS = 17
REGISTER_FULL = 18
REGISTER_DAMAGED = 19


class Refused(Exception):
    """Section "Refusal numbers": a refusal returns only its number."""

    def __init__(self, number):
        super().__init__(f"refusal {number}")
        self.number = number


# "Every measured or derived band value lies in -200..1500 tenths."
LEAST_VALUE = -200
GREATEST_VALUE = 1500


def in_range(tenths):
    """Section "Quantities and ranges": the range of a band value."""
    return LEAST_VALUE <= tenths <= GREATEST_VALUE


class Kind(NamedTuple):
    """Section "Quantities and ranges": what each kind owns."""

    name: str
    airborne: bool
    bands: int
    limit: int  # tenths
    reference: tuple  # K, whole decibels


A3 = Kind("A3", True, 16, 320,
          (-19, -16, -13, -10, -7, -4, -1, 0, 1, 2, 3, 4, 4, 4, 4, 4))
A1 = Kind("A1", True, 5, 100, (-16, -7, 0, 3, 4))
I3 = Kind("I3", False, 16, 320,
          (2, 2, 2, 2, 2, 2, 1, 0, -1, -2, -3, -6, -9, -12, -15, -18))
I1 = Kind("I1", False, 5, 100, (2, 2, 0, -3, -16))
KINDS = (A3, A1, I3, I1)


class BandSet(NamedTuple):
    """Values in tenths, limit marks (bit i for band i) and the stated length."""

    values: tuple
    marks: int
    length: int


def checked_values(band_set, bands):
    """Section "Refusal numbers": 1, then 4 for the lowest band out of range.

    Answers the values of the stated length; what lies past it never matters.
    """
    if band_set.length != bands:
        raise Refused(BAND_COUNT)
    values = tuple(band_set.values[:bands])
    for value in values:
        if not in_range(value):
            raise Refused(BAND_RANGE)
    return values


def marks_of_bands(band_set, bands):
    """The limit marks of the first so many bands."""
    return band_set.marks & ((1 << bands) - 1)


# "A reading is a level, a limit value, or missing."
LEVEL = 0
LIMIT = 1
MISSING = 2


class Reading(NamedTuple):
    """Section "Quantities and ranges": a mark and the float's 32 bits."""

    mark: int
    bits: int


def exact_value(bits):
    """Section "Quantities and ranges": the exact binary value of a 32-bit float.

    Refusal 2 for NaN and the infinities.
    """
    negative = bits >> 31 == 1
    exponent = bits >> 23 & 0xFF
    fraction = bits & 0x7FFFFF
    if exponent == 0xFF:
        raise Refused(NOT_FINITE)
    if exponent == 0:
        magnitude = fraction * Fraction(1, 2 ** 149)
    else:
        magnitude = (2 ** 23 + fraction) * Fraction(2) ** (exponent - 150)
    return -magnitude if negative else magnitude


def nearest(value, parts):
    """The whole number of 1/parts nearest an exact value, a tie to the greater."""
    return floor(value * parts + Fraction(1, 2))


def tenths_of_bits(bits):
    """Section "Quantities and ranges": 2, then the nearest tenth, then 4."""
    tenths = nearest(exact_value(bits), 10)
    if not in_range(tenths):
        raise Refused(BAND_RANGE)
    return tenths


def tenths_of_reading(reading):
    """Section "Quantities and ranges": a reading's tenths and limit mark; 3, 2, 4."""
    if reading.mark == MISSING:
        raise Refused(READING_MISSING)
    return tenths_of_bits(reading.bits), reading.mark == LIMIT


def band_set_of_readings(readings, length, bands):
    """Section "Refusal numbers": 1, then bands from the lowest, each 3, 2, 4."""
    if length != bands:
        raise Refused(BAND_COUNT)
    return taken_in(readings[:bands])


def taken_in(readings):
    """The band set of these readings, the first refusal in their order."""
    values = []
    marks = 0
    for band, reading in enumerate(readings):
        tenths, limit = tenths_of_reading(reading)
        values.append(tenths)
        marks |= limit << band
    return BandSet(tuple(values), marks, len(values))


LEAST_TIME = 10
GREATEST_TIME = 2000


def hundredths_of_time(bits):
    """Section "Background and reverberation": the nearest hundredth, a tie upward.

    Refusal 2 for NaN and the infinities, 7 outside 10..2000.
    """
    hundredths = nearest(exact_value(bits), 100)
    if not LEAST_TIME <= hundredths <= GREATEST_TIME:
        raise Refused(TIME_RANGE)
    return hundredths
