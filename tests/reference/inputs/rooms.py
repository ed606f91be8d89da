"""Corrections, raw bands, octaves, specimens, covers, grades: operations 5 to 11."""

from fractions import Fraction

from paper.quantities import A3, GREATEST_VALUE, LEAST_VALUE, LEVEL, LIMIT, Reading
from paper.rooms import REFERENCE_FLOOR, grade

from .curves import (
    AIRBORNE_SHAPES, COVER_SHAPES, analyser_bits, bits_nearest, bits_of_tenths, limit_marks,
    measured, noisy)
from .ratings import (
    GREATEST_WORD, LEAST_WORD, OUT_OF_RANGE, any_value_set, clamped, mixed_ends_set, word)
from .readings import (
    INFINITE_BITS, NAN_BITS, fault, flat, junk_readings, readings_of_values)


# Operations 5 and 6: background corrections.

CORNERS = (LEAST_WORD, LEAST_VALUE - 1, LEAST_VALUE, LEAST_VALUE + 1, 0, GREATEST_VALUE - 1,
           GREATEST_VALUE, GREATEST_VALUE + 1, GREATEST_WORD)


def correction_inputs(seeded):
    cases = [[total, background] for total in CORNERS for background in CORNERS]
    for d in range(-20, 171):
        for total in (LEAST_VALUE + max(d, 0), GREATEST_VALUE + min(d, 0),
                      seeded.between(0, 900), seeded.between(0, 900)):
            cases.append([total, total - d])
    for d in (59, 60, 61, 99, 100, 101, 148, 149, 150, 151):
        for _ in range(20):
            total = seeded.between(LEAST_VALUE + d, GREATEST_VALUE)
            cases.append([total, total - d])
    for _ in range(250):
        cases.append([seeded.between(LEAST_VALUE, GREATEST_VALUE),
                      seeded.between(LEAST_VALUE, GREATEST_VALUE)])
    for _ in range(200):
        cases.append([seeded.between(200, 900), seeded.between(100, 500)])
    return cases


# Operation 7: raw bands.

def raw_case(source, receiving, background, hundredths):
    """Bits of three levels in tenths and a time in hundredths."""
    return [bits_of_tenths(source), bits_of_tenths(receiving), bits_of_tenths(background),
            bits_nearest(Fraction(hundredths, 100))]


def measured_raw_case(seeded):
    """A receiving room some way below the source, its background below it."""
    source = seeded.between(600, 1100)
    receiving = source - seeded.between(100, 600)
    background = receiving - seeded.pick((seeded.between(-40, 200), seeded.between(55, 105)))
    time = bits_nearest(Fraction(seeded.between(20, 400), 100))
    return [analyser_bits(seeded, source), analyser_bits(seeded, receiving),
            analyser_bits(seeded, max(background, LEAST_VALUE)), time]


def faulty_raw_cases(seeded):
    """Each of the four floats good, not finite, or out of range."""
    cases = []
    for faults in range(3 ** 4):
        bits = measured_raw_case(seeded)
        for place in range(4):
            which = faults // 3 ** place % 3
            if which == 1:
                bits[place] = seeded.pick(NAN_BITS + INFINITE_BITS)
            elif which == 2:
                outside = (-201, 1501) if place < 3 else (0, -10, 201)
                bits[place] = bits_of_tenths(seeded.pick(outside))
        cases.append(bits)
    return cases


def raw_inputs(seeded):
    cases = [measured_raw_case(seeded) for _ in range(300)] + faulty_raw_cases(seeded)
    for hundredths in (9, 10, 11, 49, 50, 51, 100, 1999, 2000, 2001):
        cases.append(raw_case(900, 500, 100, hundredths))
    for hundredths in (49, 50, 51):  # around the ends of the derived range
        for off in (-2, -1, 0, 1, 2):
            cases.append(raw_case(1400 + off, -100, -200, hundredths))
            cases.append(raw_case(off, 200, 0, hundredths))
    for d in (-1700, -100, 0, 59, 60, 61, 99, 100, 101, 149, 150):
        receiving = GREATEST_VALUE if d > 0 else LEAST_VALUE
        cases.append(raw_case(900, 500, min(500 - d, GREATEST_VALUE), 50))
        cases.append(raw_case(900, receiving, min(receiving - d, GREATEST_VALUE), 80))
    while len(cases) < 600:
        levels = [seeded.between(LEAST_VALUE, GREATEST_VALUE) for _ in range(3)]
        cases.append(raw_case(*levels, seeded.between(8, 2010)))
    return cases


# Operations 8 and 10: sixteen tenths without a kind.

def sixteen_case(seeded, values, marks=None, length=16):
    marks = limit_marks(seeded, 16) if marks is None else marks
    return [length, marks, *values]


def damaged_sixteen_cases(seeded, make):
    """Out-of-range values in each band, wrong lengths, single marks."""
    cases = []
    for band in range(16):
        for value in (seeded.pick(OUT_OF_RANGE), seeded.pick((LEAST_VALUE, GREATEST_VALUE))):
            values = make()
            values[band] = value
            cases.append(sixteen_case(seeded, values))
        cases.append(sixteen_case(seeded, make(), 1 << band))
    for length in (0, 1, 5, 15, 17, 48, 50):
        cases.append(sixteen_case(seeded, [word(seeded) for _ in range(16)], length=length))
        cases.append(sixteen_case(seeded, make(), length=length))
    return cases


def octave_inputs(seeded):
    cases = damaged_sixteen_cases(seeded, lambda: measured(seeded, A3))
    cases += [sixteen_case(seeded, measured(seeded, A3)) for _ in range(130)]
    cases += [sixteen_case(seeded, mixed_ends_set(seeded, A3)) for _ in range(40)]
    cases += [sixteen_case(seeded, any_value_set(seeded, A3)) for _ in range(40)]
    for _ in range(30):  # bands close together, where the mean turns over
        lowest = seeded.between(LEAST_VALUE, GREATEST_VALUE - 30)
        cases.append(sixteen_case(seeded, [lowest + seeded.below(31) for _ in range(16)]))
    return cases


def cover_inputs(seeded):
    def measured_cover():
        return noisy(seeded, seeded.pick(COVER_SHAPES), seeded.pick((0, 5, 20)), 40)

    cases = [[16, 0, *(10 * level for level in COVER_SHAPES[0])], [16, 0, *(16 * [0])]]
    cases += damaged_sixteen_cases(seeded, measured_cover)
    cases += [sixteen_case(seeded, measured_cover()) for _ in range(110)]
    for band, floor in enumerate(REFERENCE_FLOOR):
        for off in (-1, 0, 1):  # the derived level around the lower end of the range
            values = measured_cover()
            values[band] = floor - LEAST_VALUE + off
            if seeded.chance(3):
                values[seeded.below(16)] = seeded.pick(OUT_OF_RANGE)
            cases.append(sixteen_case(seeded, values))
    cases += [sixteen_case(seeded, [seeded.between(LEAST_VALUE, 870) for _ in range(16)])
              for _ in range(60)]
    cases += [sixteen_case(seeded, mixed_ends_set(seeded, A3)) for _ in range(15)]
    return cases


# Operations 9 and 11: three specimens.

def specimen_values(seeded, shape, offset, spread):
    """48 values of one product: three curves that differ a little."""
    return clamped(10 * level + offset + seeded.between(-spread, spread)
                   for _ in range(3) for level in shape)


def specimen_pairs(seeded, values):
    """48 readings, some specimens with limit bands."""
    return [pair for lowest in (0, 16, 32)
            for pair in readings_of_values(seeded, values[lowest:lowest + 16],
                                           limit_marks(seeded, 16))]


def any_specimens(seeded):
    shape = seeded.pick(AIRBORNE_SHAPES[:4])
    spread = seeded.pick((0, 4, 15, 60))
    return specimen_pairs(
        seeded, specimen_values(seeded, shape, seeded.between(-100, 150), spread))


def damaged_specimens(seeded):
    """Wrong lengths, and one to three faults."""
    cases = [[length, *flat(any_specimens(seeded))] for length in (0, 1, 5, 16, 47, 49, 50, 144)]
    cases.append([47, *flat(junk_readings(seeded, 48))])
    for faults in (1, 1, 1, 2, 2, 3) * 5:
        pairs = any_specimens(seeded)
        for _ in range(faults):
            pairs[seeded.below(48)] = fault(seeded)
        cases.append([48, *flat(pairs)])
    for place in (0, 15, 16, 31, 32, 47):
        pairs = any_specimens(seeded)
        pairs[place] = fault(seeded)
        cases.append([48, *flat(pairs)])
    return cases


def specimen_inputs(seeded):
    cases = damaged_specimens(seeded)
    cases += [[48, *flat(any_specimens(seeded))] for _ in range(85)]
    for place in range(0, 48, 3):  # a single mark
        pairs = [(LEVEL, bits) for _, bits in any_specimens(seeded)]
        pairs[place] = (LIMIT, pairs[place][1])
        cases.append([48, *flat(pairs)])
    for _ in range(25):
        values = mixed_ends_set(seeded, A3) + mixed_ends_set(seeded, A3) + any_value_set(seeded, A3)
        cases.append([48, *flat((LEVEL, bits_of_tenths(value)) for value in values)])
    for _ in range(30):  # three that are close together
        lowest = seeded.between(LEAST_VALUE, GREATEST_VALUE - 30)
        values = [lowest + seeded.below(31) for _ in range(48)]
        cases.append([48, *flat((LEVEL, bits_of_tenths(value)) for value in values)])
    return cases


def specimens_that_decide(seeded, side, wanted):
    """Specimens with a wanted deciding number: whole decibels move it as they are."""
    values = specimen_values(seeded, seeded.pick(AIRBORNE_SHAPES[:4]), 0, 25)
    readings = [Reading(LEVEL, bits_of_tenths(value)) for value in values]
    moved = 10 * (wanted - grade(side, readings, 48).deciding)
    return specimen_pairs(seeded, [value + moved for value in values])


def grade_inputs(seeded):
    cases = [[seeded.below(2), *case] for case in damaged_specimens(seeded)]
    for side in (0, 1):
        for wanted in range(15, 50):  # through all bounds of the grades
            cases.append([side, 48, *flat(specimens_that_decide(seeded, side, wanted))])
        cases += [[side, 48, *flat(any_specimens(seeded))] for _ in range(40)]
        for end in (LEAST_VALUE, GREATEST_VALUE):
            cases.append([side, 48, *flat(48 * [(LEVEL, bits_of_tenths(end))])])
    return cases
