"""Background, raw bands, octaves, specimens, covers and grades.

Document 01, sections "Background and reverberation" and "Covers and grades",
and the octaves of section "Sums of energies".
"""

from typing import NamedTuple

from . import energies
from .quantities import (
    A3, BACKGROUND_TOO_NEAR, BAND_RANGE, BandSet, DERIVED_RANGE, I3, SPECIMEN_COUNT,
    Refused, checked_values, hundredths_of_time, in_range, marks_of_bands, taken_in,
    tenths_of_bits)
from .rating import rating_of, sheet_of, terms_of


def field_rule(total, background):
    """Section "Background and reverberation", field rule (001, 6.6), untested."""
    d = total - background
    if d >= 100:
        return total, False
    if d > 60:
        return total - energies.c(d), False
    return total - 13, True


def field_corrected(total, background):
    """The field rule as a call: 4 for the total, then for the background."""
    check_levels(total, background)
    return field_rule(total, background)


def laboratory_corrected(total, background):
    """The laboratory rule (004, 5.4.3) as a call: 4, 4, then 5."""
    check_levels(total, background)
    d = total - background
    if d >= 150:
        return total
    if d >= 60:
        return total - energies.c(d)
    raise Refused(BACKGROUND_TOO_NEAR)


def check_levels(total, background):
    """Section "Refusal numbers": a correction tests total, then background (4)."""
    for level in (total, background):
        if not in_range(level):
            raise Refused(BAND_RANGE)


def raw_band(source_bits, receiving_bits, background_bits, time_bits):
    """Section "Background and reverberation": the standardized difference and mark.

    The four floats are tested in this order (2, then 4 or 7), then 6.
    """
    source = tenths_of_bits(source_bits)
    receiving = tenths_of_bits(receiving_bits)
    background = tenths_of_bits(background_bits)
    time = hundredths_of_time(time_bits)
    corrected, limit = field_rule(receiving, background)
    difference = source - corrected + energies.k(time)
    if not in_range(difference):
        raise Refused(DERIVED_RANGE)
    return difference, limit


def octaves(band_set):
    """Section "Sums of energies": the mean of bands 1 to 3, 4 to 6, .. 13 to 15.

    The last third is not used. A mean is a limit if any of its three values is.
    """
    values = checked_values(band_set, A3.bands)
    means = []
    marks = 0
    for octave in range(5):
        lowest = 3 * octave
        means.append(energies.mean_of_three(*values[lowest:lowest + 3]))
        if band_set.marks >> lowest & 0b111:
            marks |= 1 << octave
    return BandSet(tuple(means), marks, 5)


def specimens(readings, length):
    """Section "Covers and grades": 48 readings, specimen after specimen.

    Refusal 12 for another length, then in the order given 3, 2, 4. Answers the
    band means, each a limit if any of its three values is.
    """
    if length != 48:
        raise Refused(SPECIMEN_COUNT)
    given = taken_in(readings[:48])
    means = []
    marks = 0
    for band in range(16):
        places = (band, band + 16, band + 32)
        means.append(energies.mean_of_three(*(given.values[place] for place in places)))
        if any(given.marks >> place & 1 for place in places):
            marks |= 1 << band
    return BandSet(tuple(means), marks, 16)


REFERENCE_FLOOR = (670, 675, 680, 685, 690, 695, 700, 705, 710, 715) + 6 * (720,)


class Cover(NamedTuple):
    """Improvement rating and term in dB, and the mark (at least)."""

    improvement: int
    term: int
    limit: bool


def cover(band_set):
    """Section "Covers and grades": the improvement of a floor cover.

    Derived level = reference floor less improvement; 6 after all 4s. The
    improvement rating is 78 - derived rating, its term -(impact term + 10), the
    impact term rounded first.
    """
    improvements = checked_values(band_set, I3.bands)
    derived = tuple(floor - improvement
                    for floor, improvement in zip(REFERENCE_FLOOR, improvements, strict=True))
    if not all(in_range(level) for level in derived):
        raise Refused(DERIVED_RANGE)
    rating = rating_of(I3, derived)
    impact_term, _ = terms_of(I3, derived, rating)
    limit = marks_of_bands(band_set, I3.bands) != 0
    return Cover(78 - rating, -(impact_term + 10), limit)


OUTSIDE = 0
INSIDE = 1


class Grade(NamedTuple):
    """Rating, C, Ctr, deciding number, grade and mark."""

    rating: int
    c: int
    ctr: int
    deciding: int
    grade: int
    limit: bool


def grade_of_number(deciding):
    """Section "Covers and grades" (004, table 1): the grade of a deciding number."""
    if deciding < 20:
        return 0
    for number, greatest_of_grade in ((1, 24), (2, 29), (3, 34), (4, 39), (5, 44)):
        if deciding <= greatest_of_grade:
            return number
    return 6


def grade(side, readings, length):
    """Section "Covers and grades": the grade of a door or window.

    The deciding number is rating + Ctr outside and rating + C inside.
    """
    sheet = sheet_of(A3, specimens(readings, length))
    term = sheet.second if side == OUTSIDE else sheet.first
    deciding = sheet.rating + term
    return Grade(sheet.rating, sheet.first, sheet.second, deciding,
                 grade_of_number(deciding), sheet.limit)
