"""Band sets in tenths, operation 1, and the odd values that others use too."""

from paper.quantities import A1, A3, GREATEST_VALUE, I3, KINDS, LEAST_VALUE
from paper.rooms import REFERENCE_FLOOR

from .curves import COVER_SHAPES, limit_marks, measured

LEAST_WORD = -2 ** 31
GREATEST_WORD = 2 ** 31 - 1
OUT_OF_RANGE = (LEAST_VALUE - 1, GREATEST_VALUE + 1, LEAST_WORD, GREATEST_WORD)

ISO_EXAMPLE = (204, 163, 177, 226, 224, 227, 248, 266, 280, 305, 318, 325, 334, 330, 310, 255)

# Sheets whose Ctr, C and impact term are ties: 0.5, -1.5 and 2.5 dB; and with a C of -0.5 dB.
TIED_SHEETS = ((A3, (*(15 * [500]), 430)), (A1, (360, *(4 * [500]))),
               (I3, (680, 660, 660, *(13 * [300]))), (A3, (300, *(15 * [500]))))


def word(seeded):
    """Any 32-bit word: small, out of range, extreme, or random."""
    return seeded.pick((0, 0, seeded.between(LEAST_VALUE, GREATEST_VALUE),
                        seeded.pick(OUT_OF_RANGE), seeded.between(LEAST_WORD, GREATEST_WORD)))


def padded(seeded, values):
    """Sixteen values: what lies past the length is junk."""
    return list(values) + [word(seeded) for _ in range(16 - len(values))]


def band_set_case(seeded, kind, values, marks=None, length=None):
    """Kind, length, marks with junk above the bands, sixteen values."""
    if marks is None:
        marks = limit_marks(seeded, kind.bands)
    if kind.bands < 16 and seeded.chance(2):
        marks |= seeded.below(1 << 16 - kind.bands) << kind.bands
    if length is None:
        length = kind.bands
    return [KINDS.index(kind), length, marks, *padded(seeded, values)]


def rate_inputs(seeded):
    makers = ((near_limit_set, 120), (near_whole_mean_set, 60), (mixed_ends_set, 60),
              (any_value_set, 150), (small_value_set, 60), (measured, 420))
    cases = pencil_cases()
    for kind in KINDS:
        for make, count in makers:
            cases += [band_set_case(seeded, kind, make(seeded, kind)) for _ in range(count)]
        cases += single_end_cases(seeded, kind)
        cases += out_of_range_cases(seeded, kind)
        cases += wrong_length_cases(seeded, kind)
        cases += single_mark_cases(seeded, kind)
    return cases


def pencil_set(changes):
    """x = K + 50 dB with some bands changed, in tenths."""
    values = [10 * K + 500 for K in A3.reference]
    for band, change in changes.items():
        values[band] += change
    return values


def pencil_cases():
    """The sets of the pencil checks and the example of ISO 717-1."""
    A3_sets = (16 * [500], ISO_EXAMPLE, pencil_set({}), pencil_set({7: -100}),
               pencil_set({6: -80, 7: -80}))
    cases = [[0, 16, 0, *values] for values in A3_sets]
    cases.append([1, 5, 0, 240, 330, 400, 430, 440, *(11 * [0])])
    cases.append([2, 16, 0, *REFERENCE_FLOOR])
    cover = [10 * level for level in COVER_SHAPES[0]]
    cases.append([2, 16, 0, *(floor - less for floor, less in zip(REFERENCE_FLOOR, cover))])
    cases.append([1, 4, 0, 240, 330, 400, 430, *(12 * [0])])
    cases += [[KINDS.index(kind), kind.bands, 0, *values, *((16 - kind.bands) * [0])]
              for kind, values in TIED_SHEETS]
    return cases


def clamped(values):
    return [min(max(value, LEAST_VALUE), GREATEST_VALUE) for value in values]


def near_limit_set(seeded, kind):
    """Deficits at some position that total the limit, or one tenth from it."""
    position = seeded.between(10, 70)
    total = kind.limit + seeded.between(-1, 1)
    deficits = [0] * kind.bands
    while total > 0:
        part = min(total, seeded.pick((1, 7, 10, 33, 90)))
        deficits[seeded.below(kind.bands)] += part
        total -= part
    surplus = [0 if deficit or seeded.chance(2) else seeded.below(150) for deficit in deficits]
    sign = 1 if kind.airborne else -1
    return clamped(10 * (position + K) + sign * (above - below)
                   for K, above, below in zip(kind.reference, surplus, deficits))


def near_whole_mean_set(seeded, kind):
    """A mean that is a whole decibel, or one tenth of a band from it."""
    values = [value // 2 + 200 for value in measured(seeded, kind)]
    wanted = 10 * kind.bands * seeded.between(-3, 60) + seeded.between(-1, 1)
    each, rest = divmod(wanted - sum(values), kind.bands)
    return clamped(value + each + (band < rest) for band, value in enumerate(values))


def mixed_ends_set(seeded, kind):
    """Bands at the ends of the range, some just inside."""
    return [seeded.pick((LEAST_VALUE, GREATEST_VALUE, LEAST_VALUE + 1, GREATEST_VALUE - 1,
                         seeded.between(LEAST_VALUE, GREATEST_VALUE)))
            for _ in range(kind.bands)]


def any_value_set(seeded, kind):
    return [seeded.between(LEAST_VALUE, GREATEST_VALUE) for _ in range(kind.bands)]


def small_value_set(seeded, kind):
    """Around zero, where signs change, and below it."""
    centre = seeded.pick((0, 0, -60, -150))
    return [seeded.between(centre - 50, centre + 60) for _ in range(kind.bands)]


def single_end_cases(seeded, kind):
    """All bands at one end, and all but one."""
    cases = []
    for most, one in ((GREATEST_VALUE, LEAST_VALUE), (LEAST_VALUE, GREATEST_VALUE)):
        cases.append(band_set_case(seeded, kind, kind.bands * [most]))
        for band in range(kind.bands):
            values = kind.bands * [most]
            values[band] = one
            cases.append(band_set_case(seeded, kind, values))
    return cases


def out_of_range_cases(seeded, kind):
    """One band, or two, just outside the range or at its ends, or extreme."""
    cases = []
    for band in range(kind.bands):
        for value in OUT_OF_RANGE + (LEAST_VALUE, GREATEST_VALUE):
            values = measured(seeded, kind)
            values[band] = value
            if seeded.chance(4):
                values[seeded.below(kind.bands)] = seeded.pick(OUT_OF_RANGE)
            cases.append(band_set_case(seeded, kind, values))
    return cases


def wrong_length_cases(seeded, kind):
    """Every stated length from 0 to 50, the right one included."""
    cases = []
    for length in range(51):
        values = measured(seeded, kind)
        if seeded.chance(3):
            values[seeded.below(kind.bands)] = seeded.pick(OUT_OF_RANGE)
        cases.append(band_set_case(seeded, kind, values, length=length))
    return cases


def single_mark_cases(seeded, kind):
    """Each single mark; for octaves the marks past the last band too."""
    return [[KINDS.index(kind), kind.bands, 1 << place, *padded(seeded, measured(seeded, kind))]
            for place in range(16)]
