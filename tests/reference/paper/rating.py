"""The rating, the curve method and the sheet of a band set.

Document 01, section "Rating (000, 3.2 and 4.2)", and the terms of section
"Sums of energies".
"""

from functools import lru_cache
from typing import NamedTuple, Optional

from . import energies
from .quantities import checked_values, marks_of_bands
from .search import greatest, least

# No accepted set has a position near these: the searches test that.
FAR_BELOW = -64
FAR_ABOVE = 256


def deficit(kind, band, value, position):
    """Airborne max(0, 10X + 10K - x); impact max(0, x - 10K - 10Y)."""
    K = kind.reference[band]
    if kind.airborne:
        return max(0, 10 * position + 10 * K - value)
    return max(0, value - 10 * K - 10 * position)


@lru_cache(maxsize=None)
def curve(kind, position):
    """The reference values at a curve position, in tenths: 10X + 10K."""
    return tuple(10 * position + 10 * K for K in kind.reference)


def total_deficit(kind, values, position):
    """The total of the band deficits at a curve position.

    Bands without a deficit are left out; the test of this reference compares
    it with the sum of `deficit`.
    """
    if kind.airborne:
        return sum([at - x for at, x in zip(curve(kind, position), values) if x < at])
    return sum([x - at for at, x in zip(curve(kind, position), values) if x > at])


def within_limit(kind, values, position):
    """The deficits total at most the limit."""
    return total_deficit(kind, values, position) <= kind.limit


def position_of(kind, values):
    """Airborne: the greatest whole X within the limit; impact: the least whole Y."""
    if kind.airborne:
        return greatest(lambda X: within_limit(kind, values, X), FAR_BELOW, FAR_ABOVE)
    return least(lambda Y: within_limit(kind, values, Y), FAR_BELOW, FAR_ABOVE)


def rating_at(kind, position):
    """A3 and A1 rate X, I3 rates Y, I1 rates Y - 5: the 5 is taken off once."""
    return position - 5 if kind.name == "I1" else position


def rating_of(kind, values):
    """The rating of accepted values."""
    return rating_at(kind, position_of(kind, values))


def start_of(kind, values):
    """Curve method: where it starts.

    Airborne: the mean in dB rounded up to a whole dB, plus 5. Impact: the mean
    rounded down, minus 5.
    """
    total = sum(values)
    tenths_for_each_decibel = 10 * kind.bands
    if kind.airborne:
        return -(-total // tenths_for_each_decibel) + 5
    return total // tenths_for_each_decibel - 5


def shifts_of(kind, values):
    """Curve method: the distance from the start to the accepted position.

    Airborne goes down by 1 dB, impact goes up.
    """
    start = start_of(kind, values)
    accepted = position_of(kind, values)
    return start - accepted if kind.airborne else accepted - start


def terms_in_tenths(kind, values, rating):
    """C and Ctr, or the impact term alone, before they are rounded."""
    if kind.airborne:
        spectra = (energies.SPECTRUM_C[kind.bands], energies.SPECTRUM_CTR[kind.bands])
        return [energies.airborne_term_tenths(values, spectrum, rating) for spectrum in spectra]
    return [energies.impact_term_tenths(values, rating)]


def terms_of(kind, values, rating):
    """The first and the second term in whole dB; impact has no second."""
    terms = [energies.whole_decibels(term) for term in terms_in_tenths(kind, values, rating)]
    return tuple(terms) if kind.airborne else (*terms, None)


class Sheet(NamedTuple):
    """What a rating answers. The mark: at least (airborne), at most (impact)."""

    rating: int
    first: int
    second: Optional[int]
    shifts: int
    limit: bool


def sheet_of(kind, band_set):
    """The sheet of a band set: refusal 1, then 4 for the lowest band out of range.

    A set with any limit band is marked as a limit set; a limit value is taken
    as the number shown.
    """
    values = checked_values(band_set, kind.bands)
    rating = rating_of(kind, values)
    first, second = terms_of(kind, values, rating)
    limit = marks_of_bands(band_set, kind.bands) != 0
    return Sheet(rating, first, second, shifts_of(kind, values), limit)
