"""Measured curves as a laboratory sees them, and the floats of its analyser.

Typical thirds of doors, windows, walls and floors in whole decibels, moved up
or down and made uneven by noise; their octaves are the middle thirds.
"""

from fractions import Fraction

from paper.quantities import GREATEST_VALUE, LEAST_VALUE

AIRBORNE_SHAPES = (
    # door leaf with seals
    (19, 20, 22, 23, 24, 25, 26, 27, 28, 28, 29, 29, 30, 31, 31, 32),
    # door with a gap at the floor
    (17, 18, 19, 20, 21, 21, 22, 22, 22, 21, 21, 20, 20, 19, 20, 21),
    # single glazing with its dip
    (22, 21, 23, 24, 26, 27, 29, 30, 31, 32, 33, 33, 30, 27, 31, 35),
    # double glazing with its resonance
    (24, 22, 19, 18, 22, 26, 29, 32, 35, 37, 38, 38, 36, 33, 37, 42),
    # concrete wall
    (38, 37, 39, 42, 44, 46, 49, 51, 54, 56, 58, 60, 62, 64, 66, 67),
    # plasterboard on studs
    (18, 24, 30, 35, 40, 44, 48, 51, 54, 56, 58, 59, 56, 50, 52, 57),
    # brick wall, plastered
    (34, 34, 35, 37, 39, 42, 44, 46, 48, 50, 52, 54, 56, 57, 58, 58),
)

IMPACT_SHAPES = (
    # bare concrete floor
    (61, 63, 65, 66, 67, 68, 69, 69, 70, 70, 71, 71, 72, 72, 72, 71),
    # floating screed
    (58, 57, 56, 54, 51, 48, 45, 41, 38, 35, 31, 28, 25, 23, 21, 20),
    # timber joist floor
    (70, 71, 70, 69, 68, 66, 64, 62, 59, 56, 52, 48, 44, 40, 37, 34),
    # carpet on concrete
    (60, 60, 58, 55, 50, 44, 38, 32, 27, 23, 20, 18, 17, 16, 15, 15),
)

# Improvements by carpets and floating floors.
COVER_SHAPES = (
    (0, 0, 0, 2, 6, 10, 14, 18, 22, 26, 30, 30, 30, 30, 30, 30),
    (2, 1, 0, 1, 3, 6, 9, 13, 17, 22, 26, 30, 34, 38, 41, 44),
    (-1, -2, -3, -1, 2, 5, 8, 12, 15, 18, 21, 24, 27, 29, 31, 33),
    (1, 1, 2, 2, 3, 4, 5, 6, 8, 10, 12, 14, 16, 17, 18, 19),
)


def noisy(seeded, shape, spread=12, around=150):
    """A shape in tenths, moved as a whole and made uneven band by band."""
    offset = seeded.between(-around, around)
    values = (10 * level + offset + seeded.between(-spread, spread) for level in shape)
    return [min(max(value, LEAST_VALUE), GREATEST_VALUE) for value in values]


def measured(seeded, kind):
    """A measured curve of a kind, in tenths."""
    shape = seeded.pick(AIRBORNE_SHAPES if kind.airborne else IMPACT_SHAPES)
    thirds = noisy(seeded, shape, seeded.pick((0, 3, 12, 40)))
    return thirds if kind.bands == 16 else thirds[1:15:3]


def limit_marks(seeded, bands):
    """Mostly none, else the high bands or some of them."""
    if not seeded.chance(4):
        return 0
    if seeded.chance(2):
        return (1 << bands) - (1 << seeded.between(0, bands))
    return seeded.below(1 << bands)


def bits_nearest(value):
    """The bits of the normal 32-bit float nearest an exact value, a tie to the even."""
    value = Fraction(value)
    if value == 0:
        return 0
    sign = 2 ** 31 if value < 0 else 0
    magnitude = abs(value)
    power = magnitude.numerator.bit_length() - magnitude.denominator.bit_length() - 24
    if magnitude / Fraction(2) ** power >= 2 ** 24:
        power += 1
    significand = round(magnitude / Fraction(2) ** power)
    return sign + ((power + 150) << 23) + significand - 2 ** 23


def bits_of_tenths(tenths):
    """What an analyser that shows tenths writes."""
    return bits_nearest(Fraction(tenths, 10))


def analyser_bits(seeded, tenths):
    """What an analyser with a finer scale writes: within its tenth, or the tenth."""
    if seeded.chance(2):
        return bits_of_tenths(tenths)
    return bits_nearest(Fraction(1000 * tenths + seeded.between(-490, 490), 10000))
