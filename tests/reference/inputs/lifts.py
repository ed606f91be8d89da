"""The lift list: operation 12."""

from paper.quantities import GREATEST_VALUE, KINDS, LEAST_VALUE
from paper.rating import rating_at, rating_of

from .curves import measured
from .ratings import (
    GREATEST_WORD, LEAST_WORD, OUT_OF_RANGE, any_value_set, band_set_case, clamped,
    mixed_ends_set, small_value_set)


def lift_case(seeded, kind, values, target, places=None, length=None):
    """Kind, length, marks, target, places, sixteen values."""
    needed = 696 if kind.bands == 16 else 25
    number, length, marks, *padding = band_set_case(seeded, kind, values, length=length)
    places = seeded.pick((needed, needed, 700, 800)) if places is None else places
    return [number, length, marks, target, places, *padding]


def step_of(kind):
    """One decibel better."""
    return 1 if kind.airborne else -1


def target_past(kind, values, better_by):
    """A target better than the rating by so many decibels."""
    return rating_of(kind, values) + step_of(kind) * better_by


def values_with_deficits(kind, position, deficits):
    """Values with these deficits at a curve position; a negative one is a surplus."""
    sign = step_of(kind)
    return clamped(10 * (position + K) - sign * deficit
                   for K, deficit in zip(kind.reference, deficits))


def tied_cases(seeded, kind):
    """Equal deficits at the target: all singles, all pairs, all triples, none."""
    cases = []
    equal = (21, 22, 23, 24, 25) if kind.bands == 16 else (21, 25, 26, 33, 34, 50, 51)
    for each in equal:
        position = seeded.between(20, 60)
        values = values_with_deficits(kind, position, kind.bands * [each])
        cases.append(lift_case(seeded, kind, values, rating_at(kind, position)))
    return cases


def few_heavy_cases(seeded, kind):
    """One to four bands with nearly all of the deficit: only they together reach."""
    cases = []
    for count in (1, 2, 3, 3, 3, 4):
        position = seeded.between(20, 60)
        deficits = [seeded.between(-60, 0) for _ in range(kind.bands)]
        for band in seeded.some(count, range(kind.bands)):
            deficits[band] = kind.limit + seeded.between(1, 40)
        values = values_with_deficits(kind, position, deficits)
        cases.append(lift_case(seeded, kind, values, rating_at(kind, position)))
    return cases


def near_limit_cases(seeded, kind):
    """Deficits so that some sets leave exactly the limit, and one tenth more."""
    cases = []
    for _ in range(8):
        position = seeded.between(20, 60)
        gain = seeded.between(20, 120)
        deficits = [seeded.pick((gain, gain // 2, gain - gain // 2, 0)) for _ in range(kind.bands)]
        rest = kind.limit + gain + seeded.between(0, 1) - sum(deficits)
        deficits[seeded.below(kind.bands)] += max(rest, 0)
        values = values_with_deficits(kind, position, deficits)
        rated = rating_of(kind, values)
        target = rating_at(kind, position)
        if step_of(kind) * (target - rated) > 0:
            cases.append(lift_case(seeded, kind, values, target))
    return cases


def far_end_cases(seeded, kind):
    """Near the best end of the range a lifted band still has a deficit."""
    cases = []
    best = GREATEST_VALUE if kind.airborne else LEAST_VALUE
    for _ in range(6):
        values = clamped(best - step_of(kind) * seeded.below(120) for _ in range(kind.bands))
        for _ in range(seeded.below(4)):
            values[seeded.below(kind.bands)] -= step_of(kind) * seeded.between(0, 900)
        cases.append(lift_case(seeded, kind, values,
                               target_past(kind, values, seeded.between(1, 6))))
    for better_by in (1, 2, 5):
        values = kind.bands * [best]
        cases.append(lift_case(seeded, kind, values, target_past(kind, values, better_by)))
    return cases


def refused_lift_cases(seeded, kind):
    """Targets at and past the ends, not better, small places, several at once."""
    needed = 696 if kind.bands == 16 else 25
    values = measured(seeded, kind)
    rated = rating_of(kind, values)
    good = target_past(kind, values, 2)
    wrong = list(values)
    wrong[seeded.below(kind.bands)] = seeded.pick(OUT_OF_RANGE)
    cases = [lift_case(seeded, kind, values, target) for target in
             (-101, -100, -99, 199, 200, 201, LEAST_WORD, GREATEST_WORD, rated,
              rated - step_of(kind), rated + step_of(kind), 0)]
    cases += [lift_case(seeded, kind, values, good, places)
              for places in (0, 1, 24, 25, needed - 1, needed, needed + 1, 800)]
    cases += [lift_case(seeded, kind, values, target, 0) for target in (201, -101, rated)]
    cases += [lift_case(seeded, kind, wrong, target, places)
              for target, places in ((good, needed), (201, 0), (rated, 0))]
    cases += [lift_case(seeded, kind, seeded.pick((values, wrong)), target, places, length)
              for target, places, length in ((good, 696, 0), (201, 0, 4), (good, 800, 17),
                                             (rated, 0, 21 - kind.bands))]
    return cases


def lift_inputs(seeded):
    cases = []
    for kind in KINDS:
        cases += tied_cases(seeded, kind) + few_heavy_cases(seeded, kind)
        cases += near_limit_cases(seeded, kind) + far_end_cases(seeded, kind)
        cases += refused_lift_cases(seeded, kind)
        for better_by in (1, 1, 1, 1, 2, 2, 2, 3, 3, 4, 5, 6, 8, 10, 15, 25, 40):
            for _ in range(2):
                values = seeded.pick((measured, measured, small_value_set))(seeded, kind)
                cases.append(lift_case(seeded, kind, values,
                                       target_past(kind, values, better_by)))
        for _ in range(8):
            values = seeded.pick((mixed_ends_set, any_value_set))(seeded, kind)
            target = target_past(kind, values, seeded.between(1, 30))
            cases.append(lift_case(seeded, kind, values, target))
    return cases
