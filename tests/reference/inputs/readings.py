"""Floats by their bits: operations 2, 3 and 4."""

from fractions import Fraction

from paper.quantities import (
    GREATEST_VALUE, KINDS, LEAST_VALUE, LEVEL, LIMIT, MISSING)

from .curves import analyser_bits, bits_nearest, bits_of_tenths, limit_marks, measured

NAN_BITS = (0x7FC00000, 0xFFC00000, 0x7F800001, 0xFF800001, 0x7FBFFFFF, 0x7FFFFFFF,
            0xFFFFFFFF, 0x7FA55AA5, 0x7F800100)
INFINITE_BITS = (0x7F800000, 0xFF800000)
SMALL_BITS = (0x00000000, 0x80000000, 0x00000001, 0x80000001, 0x00400000, 0x007FFFFF,
              0x807FFFFF, 0x00800000, 0x80800000)
LARGE_BITS = (0x7F7FFFFF, 0xFF7FFFFF, 0x7F000000, 0x4F000000, 0xCF000000, 0x4F800000)


# Operations 2 and 4: intake of a float.

def neighbours(bits):
    """A float and its two neighbours on the grid (not for zeros)."""
    return (bits - 1, bits, bits + 1)


def around(value):
    """The two floats on either side of a value, or the value and its neighbours."""
    return neighbours(bits_nearest(value))


def reading_inputs(seeded):
    bits = []
    for quarters in range(-83, 604, 2):  # -20.75 .. 150.75, every tie between
        bits += around(Fraction(quarters, 4))
    for _ in range(200):
        tenths = seeded.between(LEAST_VALUE - 2, GREATEST_VALUE + 2)
        bits += around(Fraction(2 * tenths + 1, 20))
    for edge in (LEAST_VALUE, GREATEST_VALUE, 0, 1, -1):
        for twentieths in (-2, -1, 0, 1, 2):
            bits += around(Fraction(2 * edge + twentieths, 20))
    bits += NAN_BITS + INFINITE_BITS + SMALL_BITS + LARGE_BITS
    bits += [sign + (exponent << 23) + fraction for sign in (0, 2 ** 31)
             for exponent in range(1, 255) for fraction in (seeded.pick((0, 0x7FFFFF)),)]
    bits += [bits_nearest(Fraction(text)) for text in ("0.25", "-0.25", "150.03125", "150.0625")]
    bits += [seeded.below(2 ** 32) for _ in range(400)]
    bits += [bits_nearest(Fraction(seeded.between(-21 * 10 ** 6, 151 * 10 ** 6), 10 ** 6))
             for _ in range(350)]
    cases = [[LIMIT if seeded.chance(5) else LEVEL, one % 2 ** 32] for one in bits]
    missing = NAN_BITS + INFINITE_BITS + SMALL_BITS + LARGE_BITS + (bits_of_tenths(350),)
    cases += [[MISSING, one] for one in missing]
    return cases


def time_inputs(seeded):
    bits = []
    for eighths in range(-1, 164, 2):  # -0.125 .. 20.375, every tie between
        bits += around(Fraction(eighths, 8))
    for hundredths in (9, 10, 11, 49, 50, 1999, 2000, 2001):
        for twohundredths in (-1, 0, 1):
            bits += around(Fraction(2 * hundredths + twohundredths, 200))
    bits += NAN_BITS + INFINITE_BITS + SMALL_BITS + LARGE_BITS
    bits += [seeded.below(2 ** 32) for _ in range(60)]
    bits += [bits_nearest(Fraction(seeded.between(0, 21 * 10 ** 5), 10 ** 5)) for _ in range(100)]
    bits += [bits_nearest(Fraction(seeded.between(20, 400), 100)) for _ in range(90)]
    return [[one % 2 ** 32] for one in bits]


# Operation 3: rating from readings.

def fault(seeded):
    """A reading that is refused: missing, not finite, or out of range."""
    mark = seeded.pick((LEVEL, LIMIT))
    return seeded.pick((
        (MISSING, seeded.pick(NAN_BITS + (0, bits_of_tenths(400)))),
        (mark, seeded.pick(NAN_BITS + INFINITE_BITS)),
        (mark, bits_of_tenths(seeded.pick((-201, 1501, -999, 9999)))),
        (mark, seeded.pick(LARGE_BITS))))


def readings_of_values(seeded, values, marks=0):
    """Pairs of a mark and bits for values in tenths."""
    return [((LIMIT if marks >> band & 1 else LEVEL), analyser_bits(seeded, value))
            for band, value in enumerate(values)]


def flat(pairs):
    return [number for pair in pairs for number in pair]


def junk_readings(seeded, count):
    return [fault(seeded) if seeded.chance(2) else (LEVEL, seeded.below(2 ** 32))
            for _ in range(count)]


def readings_case(seeded, kind, faults=0, length=None):
    """Sixteen pairs: a measured curve with faults, junk past the length."""
    marks = limit_marks(seeded, kind.bands)
    pairs = readings_of_values(seeded, measured(seeded, kind), marks)
    for _ in range(faults):
        pairs[seeded.below(kind.bands)] = fault(seeded)
    pairs += junk_readings(seeded, 16 - kind.bands)
    return [KINDS.index(kind), kind.bands if length is None else length, *flat(pairs)]


def rate_reading_inputs(seeded):
    cases = []
    for kind in KINDS:
        cases += [readings_case(seeded, kind) for _ in range(40)]
        cases += [readings_case(seeded, kind, faults) for faults in (1, 1, 2, 3) * 5]
        cases += [readings_case(seeded, kind, seeded.below(2), length)
                  for length in (0, 1, 4, 5, 6, 15, 16, 17, 48, 50)]
        cases += [[KINDS.index(kind), kind.bands, *flat(junk_readings(seeded, 16))]
                  for _ in range(5)]
    return cases
