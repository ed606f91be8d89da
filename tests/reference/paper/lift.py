"""The lift list.

Document 01, section "The lift list": every set is tried through the rating.
"""

from itertools import combinations

from .quantities import (
    GREATEST_VALUE, LEAST_VALUE, OUTPUT_TOO_SMALL, Refused, TARGET_NOT_BETTER,
    TARGET_RANGE, checked_values)
from .rating import rating_of

LEAST_TARGET = -100
GREATEST_TARGET = 200
PLACES = {16: 696, 5: 25}


def better(kind, one, other):
    """Better is greater (airborne) or less (impact)."""
    return one > other if kind.airborne else one < other


def lifted(kind, values, bands):
    """The values with these bands replaced by 1500 (impact: -200)."""
    lifted_value = GREATEST_VALUE if kind.airborne else LEAST_VALUE
    return tuple(lifted_value if band in bands else value
                 for band, value in enumerate(values))


def reaches(kind, values, bands, target):
    """With these bands lifted and the rest kept, the rating is the target or better."""
    rating = rating_of(kind, lifted(kind, values, bands))
    return rating == target or better(kind, rating, target)


def candidate_sets(kind):
    """The sets of 1 to 3 bands, by size, then lowest, next and last band."""
    return [bands for size in (1, 2, 3) for bands in combinations(range(kind.bands), size)]


def smaller_parts(bands):
    """The non-empty parts of a set that are smaller than it."""
    return [part for size in range(1, len(bands)) for part in combinations(bands, size)]


def mask_of(bands):
    """A 16-bit number, bit 0 the lowest band."""
    return sum(1 << band for band in bands)


def listed(kind, values, target):
    """Each reaching set of which no smaller non-empty part reaches, in order."""
    candidates = candidate_sets(kind)
    reaching = {bands for bands in candidates if reaches(kind, values, bands, target)}
    return [mask_of(bands) for bands in candidates
            if bands in reaching
            and not any(part in reaching for part in smaller_parts(bands))]


def lift_list(kind, band_set, target, lent):
    """The lift list, written from place 0 of the lent list; answers the count.

    Refusals 1 and 4 as for a rating, then 9, 8, 10. A refusal changes nothing,
    and places after the count keep their contents.
    """
    values = checked_values(band_set, kind.bands)
    if not LEAST_TARGET <= target <= GREATEST_TARGET:
        raise Refused(TARGET_RANGE)
    if not better(kind, target, rating_of(kind, values)):
        raise Refused(TARGET_NOT_BETTER)
    if len(lent) < PLACES[kind.bands]:
        raise Refused(OUTPUT_TOO_SMALL)
    masks = listed(kind, values, target)
    lent[:len(masks)] = masks
    return len(masks)
