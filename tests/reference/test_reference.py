"""The test of the reference itself.

    python3 tests/reference/test_reference.py

Every pencil check, example and slip of document 01, the laws behind the
numbers, the worked example of ISO 717-1, and of document 02 the rounding and
the register. The last line counts the tests.
"""

import struct
import sys
import traceback
from decimal import Decimal, getcontext
from fractions import Fraction
from itertools import accumulate, combinations, product

sys.dont_write_bytecode = True

from cases import OPERATIONS, answer_of_case, answers_of_cases
from paper import energies, lift, quantities, rating, register, rooms
from paper.energies import B, F, G, H
from paper.lines import (
    KEY, answer_line, answer_line_into, answers_of, band_of_text, request_of_line)
from paper.quantities import (
    A1, A3, BandSet, I1, I3, KINDS, LEVEL, LIMIT, MISSING, Reading, Refused)
from paper.rating import position_of, rating_of, sheet_of, terms_in_tenths, total_deficit
from inputs import inputs_of
from inputs.curves import bits_nearest, measured
from inputs.histories import histories, taken
from inputs.ratings import (
    ISO_EXAMPLE, TIED_SHEETS, any_value_set, mixed_ends_set, near_limit_set, near_whole_mean_set,
    pencil_set, small_value_set)
from inputs.readings import INFINITE_BITS, NAN_BITS, SMALL_BITS
from inputs.requests import (
    any_key, level_text, line_of, line_of_length, line_of_texts, request_data, whole_example)
from inputs.seeded import Seeded

getcontext().prec = 40

NO_REQUEST = b"?\t?\t11\n"


# Helpers.

def same(have, want, about=""):
    """Fails unless both are equal."""
    if have != want:
        raise AssertionError(f"{about} is {have!r}, not {want!r}")


def differ(one, other, about=""):
    """Fails unless the two are different."""
    if one == other:
        raise AssertionError(f"{about}: both are {one!r}")


def refusal_of(call, *arguments):
    """The number a call is refused with, 0 if it is not."""
    try:
        call(*arguments)
    except Refused as refused:
        return refused.number
    return 0


def whole_set(values, marks=0):
    """A band set of its own length."""
    return BandSet(tuple(values), marks, len(values))


def bits_of(text):
    """The bits of a decimal text that a 32-bit float holds exactly."""
    bits = bits_nearest(Fraction(text))
    same(quantities.exact_value(bits), Fraction(text), text)
    return bits


def level(text):
    return Reading(LEVEL, bits_nearest(Fraction(text)))


def sheet_numbers(kind, values):
    sheet = sheet_of(kind, whole_set(values))
    return sheet.rating, sheet.first, sheet.second, sheet.shifts


def varied_sets(seed, kind, count):
    """Accepted sets of every sort."""
    seeded = Seeded(seed)
    makers = (measured, any_value_set, mixed_ends_set, near_limit_set, near_whole_mean_set,
              small_value_set)
    return [tuple(makers[place % len(makers)](seeded, kind)) for place in range(count)]


# Quantities and readings.

def test_kinds_own_their_numbers():
    same([kind.name for kind in KINDS], ["A3", "A1", "I3", "I1"])
    same([kind.bands for kind in KINDS], [16, 5, 16, 5])
    same([len(kind.reference) for kind in KINDS], [16, 5, 16, 5])
    same([kind.limit for kind in KINDS], [320, 100, 320, 100])
    for spectra in (energies.SPECTRUM_C, energies.SPECTRUM_CTR):
        same([len(spectra[bands]) for bands in (16, 5)], [16, 5])


def test_reference_values_of_iso_717():
    """K is the standard's curve less its value at 500 Hz."""
    for kind, curve in (
            (A3, (33, 36, 39, 42, 45, 48, 51, 52, 53, 54, 55, 56, 56, 56, 56, 56)),
            (A1, (36, 45, 52, 55, 56)),
            (I3, (62, 62, 62, 62, 62, 62, 61, 60, 59, 58, 57, 54, 51, 48, 45, 42)),
            (I1, (67, 67, 65, 62, 49))):
        at_500_hertz = curve[7] if kind.bands == 16 else curve[2]
        same(kind.reference, tuple(level - at_500_hertz for level in curve), kind.name)


def test_spectra_step_by_step():
    """The table of 000, 3.1.3, typed again as its lowest level and the steps up the bands."""
    steps = {
        "C": (-29, 3, 3, 2, 2, 2, 2, 2, 1, 1, 1, 1, 0, 0, 0, 0),
        "Ctr": (-20, 0, 2, 2, 1, 1, 1, 1, 1, 2, 1, -1, -1, -1, -2, -2),
    }
    same(energies.SPECTRUM_C[16], tuple(accumulate(steps["C"])))
    same(energies.SPECTRUM_CTR[16], tuple(accumulate(steps["Ctr"])))


def test_octave_spectra_are_sums_of_thirds():
    for spectra in (energies.SPECTRUM_C, energies.SPECTRUM_CTR):
        for octave, octave_level in enumerate(spectra[5]):
            thirds = spectra[16][3 * octave:3 * octave + 3]
            energy = sum(Decimal(10) ** (Decimal(L) / 10) for L in thirds)
            same(octave_level, int((10 * energy.log10()).quantize(Decimal(1))), thirds)


def test_intake_examples():
    for text, tenths in (("0.25", 3), ("-0.25", -2), ("150.03125", 1500)):
        same(quantities.tenths_of_bits(bits_of(text)), tenths, text)
    same(refusal_of(quantities.tenths_of_bits, bits_of("150.0625")), 4)
    same(quantities.tenths_of_bits(0x80000000), 0, "negative zero")


def test_intake_slips():
    """Half away from zero, half down, and the range before the rounding."""
    minus_quarter = quantities.exact_value(bits_of("-0.25")) * 10
    away = -int(-minus_quarter + Fraction(1, 2))
    same(away, -3)
    differ(away, quantities.tenths_of_bits(bits_of("-0.25")), "half away from zero")
    quarter = quantities.exact_value(bits_of("0.25")) * 10
    half_down = -((Fraction(1, 2) - quarter) // 1)
    same(half_down, 2)
    differ(half_down, quantities.tenths_of_bits(bits_of("0.25")), "half down")
    assert quantities.exact_value(bits_of("150.03125")) > 150, "past the range before rounding"


def test_exact_value_is_the_float():
    """The bits taken apart agree with the machine's own reading of them."""
    seeded = Seeded(1)
    patterns = [seeded.below(2 ** 32) for _ in range(3000)] + list(SMALL_BITS)
    for bits in patterns:
        number, = struct.unpack(">f", struct.pack(">I", bits))
        if bits >> 23 & 0xFF == 0xFF:
            same(refusal_of(quantities.exact_value, bits), 2, hex(bits))
        else:
            same(quantities.exact_value(bits), Fraction(number), hex(bits))


def test_intake_is_nearest_tie_to_the_greater():
    seeded = Seeded(2)
    values = [Fraction(quarters, 4) for quarters in range(-79, 600)]
    values += [Fraction(seeded.between(-2004, 15004), 100) for _ in range(1000)]
    for value in values:
        centre = bits_nearest(value)
        for bits in ((centre - 1, centre, centre + 1) if centre else (0,)):
            exact = quantities.exact_value(bits)
            tenths = quantities.nearest(exact, 10)
            assert 2 * tenths - 1 <= 20 * exact < 2 * tenths + 1, hex(bits)
            refused = refusal_of(quantities.tenths_of_bits, bits)
            same(refused, 0 if -200 <= tenths <= 1500 else 4, hex(bits))


def test_intake_refusals_in_order():
    for bits in NAN_BITS + INFINITE_BITS:
        same(refusal_of(quantities.tenths_of_reading, Reading(MISSING, bits)), 3, hex(bits))
        same(refusal_of(quantities.tenths_of_reading, Reading(LEVEL, bits)), 2, hex(bits))
        same(refusal_of(quantities.tenths_of_reading, Reading(LIMIT, bits)), 2, hex(bits))
    for bits in (0x7F7FFFFF, 0xFF7FFFFF, bits_of("-20.25")):
        same(refusal_of(quantities.tenths_of_reading, Reading(LEVEL, bits)), 4, hex(bits))
    same(quantities.tenths_of_reading(level("35.4")), (354, False))
    same(quantities.tenths_of_reading(Reading(LIMIT, bits_of("-20"))), (-200, True))
    same(quantities.tenths_of_reading(level("-20.049")), (-200, False))


def test_list_intake():
    readings = [level("24"), level("33"), Reading(LIMIT, bits_of("40")), level("43"), level("44")]
    junk = 11 * [Reading(MISSING, 0)]
    taken = quantities.band_set_of_readings(readings + junk, 5, 5)
    same(taken, BandSet((240, 330, 400, 430, 440), 0b00100, 5))
    for length in (0, 4, 6, 16):
        same(refusal_of(quantities.band_set_of_readings, readings + junk, length, 5), 1)
    for first, second, want in ((Reading(MISSING, 0), level("200"), 3),
                                (level("200"), Reading(MISSING, 0), 4),
                                (Reading(LEVEL, NAN_BITS[0]), Reading(MISSING, 0), 2)):
        damaged = list(readings)
        damaged[1], damaged[3] = first, second
        same(refusal_of(quantities.band_set_of_readings, damaged, 5, 5), want)


def test_reverberation_time_intake():
    for text, hundredths in (("0.125", 13), ("0.375", 38), ("19.875", 1988), ("20", 2000),
                             ("0.5", 50)):
        same(quantities.hundredths_of_time(bits_of(text)), hundredths, text)
    for text, want in (("0.0949", 7), ("0.0951", 0), ("20.0049", 0), ("20.0051", 7), ("-1", 7),
                       ("0", 7), ("1000000", 7)):
        same(refusal_of(quantities.hundredths_of_time, bits_nearest(Fraction(text))), want, text)
    for bits in NAN_BITS + INFINITE_BITS:
        same(refusal_of(quantities.hundredths_of_time, bits), 2, hex(bits))


# Sums of energies.

def test_F_by_its_power_rule():
    for d in range(901):
        n = F(d)
        assert n ** 100 * 10 ** d <= 10 ** 900 < (n + 1) ** 100 * 10 ** d, d
    same((F(0), F(100), F(900), F(901), F(5000)), (10 ** 9, 10 ** 8, 1, 0, 0))


def test_H_G_B_by_their_power_rules():
    for j in range(1, 131):
        n = H(j)
        assert (n - 1) ** 200 < 10 ** (1799 + 2 * j) <= n ** 200, j
        n = G(j)
        ten = 10 ** (2 * j - 1)
        assert n ** 200 * ten <= 3 ** 200 * 10 ** 1800 < (n + 1) ** 200 * ten, j
        n = B(j)
        assert n ** 200 * ten <= 10 ** 1800 < (n + 1) ** 200 * ten, j


def number_of(holds, bound):
    """The number of j from 1 to a bound with a property, by trying each."""
    return sum(1 for j in range(1, bound + 1) if holds(j))


def test_u_and_v_by_powers():
    """H(j) <= S says S^200 >= 10^(1799+2j); S <= G(j) says the like of v."""
    seeded = Seeded(3)
    sums = [10 ** 9, 16 * 10 ** 9] + [seeded.between(10 ** 9, 16 * 10 ** 9) for _ in range(40)]
    sums += [H(j) + off for j in (1, 2, 60, 119, 120) for off in (-1, 0)]
    for S in sums:
        power = S ** 200
        same(energies.u(S), number_of(lambda j: power >= 10 ** (1799 + 2 * j), 200), S)
    sums = [10 ** 9, 3 * 10 ** 9] + [seeded.between(10 ** 9, 3 * 10 ** 9) for _ in range(40)]
    sums += [G(j) + off for j in (1, 2, 30, 47, 48) for off in (0, 1)]
    for S in sums:
        power = S ** 200
        same(energies.v(S),
             number_of(lambda j: power * 10 ** (2 * j - 1) <= 3 ** 200 * 10 ** 1800, 100), S)


def test_u_at_its_ends():
    same((energies.u(10 ** 9), energies.u(10 ** 10), energies.u(16 * 10 ** 9)), (0, 100, 120))
    same((energies.v(3 * 10 ** 9), energies.v(10 ** 9)), (0, 48))


def test_c_pencil_and_powers():
    same([energies.c(d) for d in (60, 61, 70, 149)], [13, 12, 10, 1], "c")
    for d in range(60, 150):
        rest = (10 ** 9 - F(d)) ** 200
        same(energies.c(d), number_of(lambda j: rest * 10 ** (2 * j - 1) <= 10 ** 1800, 60), d)


def test_k_pencil_and_powers():
    same([energies.k(T) for T in (10, 50, 100, 2000)], [-70, 0, 30, 160], "k")
    for T in [*range(10, 2001, 37), 49, 51, 1999]:
        k = energies.k(T)
        ratio = Fraction(T, 50) ** 200
        assert Fraction(10) ** (2 * k - 1) <= ratio < Fraction(10) ** (2 * k + 1), T


def half_up(tenths):
    """Document 01's rounding of a term, before request (ii) of document 02."""
    return (tenths + 5) // 10


def half_down(tenths):
    return -half_up(-tenths)


def half_away(tenths):
    """A half goes away from zero."""
    return half_up(tenths) if tenths >= 0 else half_down(tenths)


def test_terms_are_rounded_to_the_even():
    for tenths, decibels in ((5, 0), (-15, -2), (25, 2), (15, 2), (-5, 0), (-25, -2), (0, 0),
                             (4, 0), (6, 1), (-4, 0), (-6, -1), (14, 1), (16, 2), (-14, -1),
                             (-16, -2)):
        same(energies.whole_decibels(tenths), decibels, tenths)
    for tenths in range(-1200, 1201):
        decibels = energies.whole_decibels(tenths)
        assert abs(10 * decibels - tenths) <= 5, "the nearest"
        assert tenths % 10 != 5 or decibels % 2 == 0, "of two that are as near the even one"
        same(energies.whole_decibels(-tenths), -decibels, "by size and with the sign put back")


def test_rounding_differs_from_half_up_at_odd_ties_alone():
    """Exactly where half up gives an odd number at a tie, and is then one less."""
    for tenths in range(-1200, 1201):
        odd_tie = tenths % 10 == 5 and half_up(tenths) % 2 == 1
        same(energies.whole_decibels(tenths), half_up(tenths) - odd_tie, tenths)


def level_of(energy):
    """Ten times the logarithm of an energy, in tenths."""
    return 100 * Decimal(energy).log10()


def test_terms_are_the_formulas():
    """Within a tenth of -10 lg of the sum (000, 3.4) and of the energetic sum (C.1.2)."""
    for kind in KINDS:
        for values in varied_sets(4, kind, 30):
            rated = rating_of(kind, values)
            if kind.airborne:
                for spectra in (energies.SPECTRUM_C, energies.SPECTRUM_CTR):
                    spectrum = spectra[kind.bands]
                    energy = sum(Decimal(10) ** (Decimal(10 * L - x) / 100)
                                 for L, x in zip(spectrum, values))
                    exact = -level_of(energy) - 10 * rated
                    tenths = energies.airborne_term_tenths(values, spectrum, rated)
                    assert abs(exact - tenths) < Decimal("0.6"), (kind.name, values)
            else:
                energy = sum(Decimal(10) ** (Decimal(x) / 100) for x in values)
                exact = level_of(energy) - 150 - 10 * rated
                tenths = energies.impact_term_tenths(values, rated)
                assert abs(exact - tenths) < Decimal("0.6"), (kind.name, values)


def test_mean_of_three():
    seeded = Seeded(5)
    for _ in range(300):
        lowest = seeded.between(-200, 1300)
        three = [lowest + seeded.below(seeded.pick((3, 40, 200))) for _ in range(3)]
        mean = energies.mean_of_three(*three)
        assert min(three) <= mean <= max(three), three
        energy = sum(Decimal(10) ** (Decimal(-x) / 100) for x in three) / 3
        assert abs(-level_of(energy) - mean) < Decimal("0.51"), three
    same(energies.mean_of_three(400, 400, 400), 400)
    same(energies.mean_of_three(-200, 1500, 1500), -200 + 48)
    same(energies.mean_of_three(300, 400, 400), energies.mean_of_three(400, 400, 300))


# Rating.

def test_total_is_the_sum_of_deficits():
    for kind in KINDS:
        for values in varied_sets(6, kind, 24):
            for position in (-40, 0, 37, position_of(kind, values), 170):
                want = sum(rating.deficit(kind, band, value, position)
                           for band, value in enumerate(values))
                same(total_deficit(kind, values, position), want, (kind.name, position))


def test_position_is_the_greatest_or_least():
    """Against every position from -400 to 400, by the deficit of each band."""
    for kind in KINDS:
        for values in varied_sets(7, kind, 18):
            accepted = [position for position in range(-400, 401)
                        if sum(rating.deficit(kind, band, value, position)
                               for band, value in enumerate(values)) <= kind.limit]
            want = max(accepted) if kind.airborne else min(accepted)
            same(position_of(kind, values), want, (kind.name, values))


def curve_method(kind, values):
    """Position and shifts by walking the curve from the start, 1 dB at a time."""
    mean = Fraction(sum(values), 10 * kind.bands)
    step = -1 if kind.airborne else 1
    position = -((-mean) // 1) + 5 if kind.airborne else mean // 1 - 5
    shifts = 0
    while total_deficit(kind, values, position) > kind.limit:
        position += step
        shifts += 1
    return position, shifts


def test_curve_method_finds_the_position():
    for kind in KINDS:
        for values in varied_sets(8, kind, 120):
            want = (position_of(kind, values), rating.shifts_of(kind, values))
            same(curve_method(kind, values), want, (kind.name, values))


def test_many_shifts():
    for kind in KINDS:
        most, one = (1500, -200) if kind.airborne else (-200, 1500)
        for band in range(kind.bands):
            values = kind.bands * [most]
            values[band] = one
            assert sheet_of(kind, whole_set(values)).shifts > 100, (kind.name, band)


def test_pencil_ratings():
    same(sheet_numbers(A3, 16 * [500]), (50, 0, 0, 5), "K1")
    same(sheet_numbers(A1, [240, 330, 400, 430, 440]), (42, -2, -6, 0), "K2")
    same(sheet_numbers(I3, rooms.REFERENCE_FLOOR), (78, -10, None, 13), "K3")
    same(refusal_of(sheet_of, A1, whole_set([240, 330, 400, 430])), 1, "K4")
    same(rating_of(A3, pencil_set({})), 52, "x = K + 50")
    same(total_deficit(A3, pencil_set({}), 52), 320, "its total")
    same(rating_of(A3, pencil_set({7: 400 - 500})), 51, "500 Hz at 40.0")
    same(pencil_set({7: -100})[7], 400)
    same(rating_of(A3, pencil_set({6: -80, 7: -80})), 51, "400 and 500 Hz 8 dB down")


def test_pencil_sheets_with_a_tie():
    """Half up would give 1 for 0.5, -1 for -1.5, 3 for 2.5 dB; half down -1 for -0.5 dB."""
    terms = ([-8, 5], [-15, -39], [25], [-5, -30])
    sheets = ((49, -1, 0, 6), (51, -2, -4, 2), (54, 2, None, 23), (50, 0, -3, 4))
    for (kind, values), tenths, numbers in zip(TIED_SHEETS, terms, sheets, strict=True):
        same(terms_in_tenths(kind, values, rating_of(kind, values)), tenths, kind.name)
        same(sheet_numbers(kind, values), numbers, kind.name)


def test_worked_example_of_iso_717_1():
    sheet = sheet_of(A3, whole_set(ISO_EXAMPLE))
    same((sheet.rating, sheet.first, sheet.second), (30, -2, -3))


def test_rating_refusals():
    for kind in KINDS:
        values = [400] * 16
        for length in range(51):
            want = 0 if length == kind.bands else 1
            same(refusal_of(sheet_of, kind, BandSet(values, 0, length)), want, length)
        for band in range(kind.bands):
            for value, want in ((-200, 0), (1500, 0), (-201, 4), (1501, 4), (-2 ** 31, 4)):
                damaged = list(values)
                damaged[band] = value
                same(refusal_of(sheet_of, kind, BandSet(damaged, 0, kind.bands)), want, value)
    same(refusal_of(sheet_of, A1, BandSet([2000] * 16, 0, 4)), 1, "1 before 4")


def test_what_lies_past_the_length_never_matters():
    clean = sheet_of(A1, BandSet((240, 330, 400, 430, 440) + 11 * (0,), 0, 5))
    junk = sheet_of(A1, BandSet((240, 330, 400, 430, 440) + 11 * (2 ** 31 - 1,), 0xFFE0, 5))
    same(clean, junk)


def test_limit_mark_of_a_set():
    for kind in KINDS:
        values = kind.bands * [400]
        plain = sheet_of(kind, whole_set(values))
        same(plain.limit, False)
        for band in range(kind.bands):
            same(sheet_of(kind, whole_set(values, 1 << band)), plain._replace(limit=True), band)


# Slips that look right.

def test_slip_mean_rounded_down():
    values = (240, 330, 400, 430, 440)
    position = sum(values) // 50 + 5
    while total_deficit(A1, values, position) > A1.limit:
        position -= 1
    same(position, 41, "the slip")
    same(rating_of(A1, values), 42, "K2")


def test_slip_five_taken_off_twice():
    values = [10 * K + 600 for K in I1.reference]
    same([total_deficit(I1, values, Y) for Y in (60, 59, 58, 57)], [0, 50, 100, 150])
    same(rating_of(I1, values), 53, "58 less 5")
    differ(rating_of(I1, values), 58 - 5 - 5, "5 taken off twice")
    differ(rating_of(I1, values), 58, "5 not taken off")
    same(sheet_of(I1, whole_set(values)).shifts, 58 - ((600 - 30) // 10 - 5), "shifts to Y")


def test_slip_limit_itself_refused():
    values = pencil_set({})
    slipped = max(X for X in range(-100, 200) if total_deficit(A3, values, X) < A3.limit)
    same(slipped, 51, "the slip")
    same(rating_of(A3, values), 52)


def test_slip_pair_with_a_band_that_reaches_alone():
    values = tuple(pencil_set({7: -100}))
    slipped = [lift.mask_of(bands) for bands in lift.candidate_sets(A3)
               if lift.reaches(A3, values, bands, 52)]
    assert 128 + 1 in slipped and len(slipped) > 1, "the slip lists pairs"
    same(lift.listed(A3, values, 52), [128])


def test_slip_sixty_alike_under_both_rules():
    same(rooms.field_corrected(600, 540), (587, True))
    same(rooms.laboratory_corrected(600, 540), 587)
    same(refusal_of(rooms.laboratory_corrected, 600, 541), 5)
    same(rooms.field_corrected(600, 541), (587, True))
    same(rooms.field_corrected(600, 539), (588, False))
    same(refusal_of(rooms.laboratory_corrected, 600, 540), 0, "as 59 would be")


def test_slip_C_and_Ctr_exchanged():
    sheet = sheet_of(A1, whole_set((240, 330, 400, 430, 440)))
    differ((sheet.second, sheet.first), (-2, -6))
    same((sheet.first, sheet.second), (-2, -6))


def test_slip_deciding_number_rounded_after_the_sum():
    kind, values = TIED_SHEETS[0]
    rated = rating_of(kind, values)
    ctr = terms_in_tenths(kind, values, rated)[1]
    same(energies.whole_decibels(10 * rated + ctr), 50, "the slip: 49.5")
    readings = 3 * [level(Fraction(tenths, 10)) for tenths in values]
    same(rooms.grade(rooms.OUTSIDE, readings, 48).deciding, 49, "49 and 0")


# Rooms.

def test_background_rules_at_their_bounds():
    same([rooms.field_corrected(500, 500 - d) for d in (-100, 0, 59, 60, 61, 99, 100, 101)],
         [(487, True)] * 4 + [(488, False), (500 - energies.c(99), False), (500, False),
                              (500, False)])
    same([rooms.laboratory_corrected(500, 500 - d) for d in (60, 61, 99, 100, 149, 150)],
         [487, 488] + [500 - energies.c(d) for d in (99, 100)] + [499, 500])
    same(energies.c(99) > 0 and energies.c(100) > 0, True, "the rules differ at 100")
    for d in (59, 0, -1):
        same(refusal_of(rooms.laboratory_corrected, 500, 500 - d), 5, d)


def test_background_ranges():
    same(rooms.field_corrected(-200, -200), (-213, True), "not tested for range")
    for rule in (rooms.field_corrected, rooms.laboratory_corrected):
        for total, background in ((-201, 0), (1501, 0), (0, -201), (0, 1501), (2000, 2000)):
            same(refusal_of(rule, total, background), 4, (total, background))
    same(refusal_of(rooms.laboratory_corrected, -200, 1501), 4, "4 before 5")


def raw(source, receiving, background, time):
    return [bits_nearest(Fraction(text)) for text in (source, receiving, background, time)]


def test_raw_band():
    same(rooms.raw_band(*raw("90", "50", "30", "0.5")), (400, False))
    same(rooms.raw_band(*raw("90", "50", "43", "0.5")), (400 + 10, False), "c(70)")
    same(rooms.raw_band(*raw("90", "50", "44", "1")), (400 + 13 + 30, True))
    same(rooms.raw_band(*raw("90", "50", "90", "0.1")), (400 + 13 - 70, True))
    same(rooms.raw_band(*raw("140", "-10", "-20", "0.5")), (1500, False))
    same(refusal_of(rooms.raw_band, *raw("140.1", "-10", "-20", "0.5")), 6)
    same(rooms.raw_band(*raw("0", "20", "0", "0.5")), (-200, False))
    same(refusal_of(rooms.raw_band, *raw("-0.1", "20", "0", "0.5")), 6)


def test_raw_band_order():
    """Each float good, not finite, or out of range: the first fault decides."""
    nan = 0x7FC00000
    outside = raw("151", "-21", "151", "21")
    for faults in product((0, 1, 2), repeat=4):
        bits = raw("-20", "150", "20", "0.5")
        want = 6
        for place in reversed(range(4)):
            if faults[place] == 1:
                bits[place], want = nan, 2
            elif faults[place] == 2:
                bits[place], want = outside[place], 7 if place == 3 else 4
        same(refusal_of(rooms.raw_band, *bits), want, faults)


def test_octaves():
    values = [100, 100, 100, 200, 200, 200, 300, 300, 300, 400, 400, 400, 500, 500, 500, -200]
    same(rooms.octaves(whole_set(values)), BandSet((100, 200, 300, 400, 500), 0, 5))
    for band in range(16):
        want = 1 << band // 3 if band < 15 else 0
        same(rooms.octaves(whole_set(values, 1 << band)).marks, want, band)
    same(rooms.octaves(whole_set([0, 100, 200] + 13 * [0])).values[0],
         energies.mean_of_three(0, 100, 200))
    same(energies.mean_of_three(0, 100, 200), 43, "-10 lg((1 + 0.1 + 0.01) / 3) is 4.3")
    for length in (0, 5, 15, 17, 48):
        same(refusal_of(rooms.octaves, BandSet(values, 0, length)), 1, length)
    same(refusal_of(rooms.octaves, whole_set(values[:-1] + [1501])), 4, "the unused third too")


def test_specimens():
    first = [level("30")] * 16
    second = [level("30")] * 15 + [level("40")]
    third = [Reading(LIMIT, bits_of("30"))] + [level("30")] * 14 + [level("50")]
    readings = first + second + third
    means = rooms.specimens(readings, 48)
    same(means, BandSet(15 * (300,) + (343,), 1, 16))
    for length in (0, 16, 47, 49):
        same(refusal_of(rooms.specimens, readings, length), 12, length)
    for early, late in combinations((3, 2, 4), 2):
        for one, other in ((early, late), (late, early)):
            damaged = list(readings)
            damaged[20], damaged[33] = faulty(one), faulty(other)
            same(refusal_of(rooms.specimens, damaged, 48), one, (one, other))
    damaged = list(readings)
    damaged[31], damaged[32] = faulty(4), faulty(3)
    same(refusal_of(rooms.specimens, damaged, 48), 4, "specimen after specimen, not band by band")


def faulty(number):
    """A reading that is refused with a number."""
    return {3: Reading(MISSING, 0), 2: Reading(LIMIT, 0x7F800000), 4: level("151")}[number]


def test_cover_pencil():
    less = [10 * level for level in (0, 0, 0, 2, 6, 10, 14, 18, 22, 26, 30, 30, 30, 30, 30, 30)]
    derived = [floor - one for floor, one in zip(rooms.REFERENCE_FLOOR, less)]
    same(rating_of(I3, derived), 59)
    same(rooms.cover(whole_set(less)), (19, -10, False))
    same(rooms.cover(whole_set(16 * [0])), (0, 0, False), "no cover")
    same(rooms.cover(whole_set(less, 0x8000)), (19, -10, True))


def test_cover_term_is_the_same_rounded_first_or_last():
    """By GB 8170 rounding last gives the same term; half up it would not, at a tie."""
    seeded = Seeded(9)
    others = 0
    for _ in range(200):
        values = [seeded.between(0, 400) for _ in range(16)]
        derived = [floor - one for floor, one in zip(rooms.REFERENCE_FLOOR, values)]
        rated = rating_of(I3, derived)
        tenths = energies.impact_term_tenths(derived, rated)
        term = rooms.cover(whole_set(values)).term
        same(term, -(energies.whole_decibels(tenths) + 10), values)
        same(term, energies.whole_decibels(-(tenths + 100)), values)
        others += term != half_up(-(tenths + 100))
    assert others > 0, "no example has a tie"


def test_cover_refusals():
    values = 16 * [100]
    for band, floor in enumerate(rooms.REFERENCE_FLOOR):
        edge = list(values)
        edge[band] = floor + 200
        same(refusal_of(rooms.cover, whole_set(edge)), 0, band)
        edge[band] = floor + 201
        same(refusal_of(rooms.cover, whole_set(edge)), 6, band)
        edge[15 - band] = 1501
        same(refusal_of(rooms.cover, whole_set(edge)), 4, "6 after all 4s")
    for length in (0, 5, 15, 17):
        same(refusal_of(rooms.cover, BandSet(values, 0, length)), 1, length)


def test_grades():
    bounds = ((-40, 0), (19, 0), (20, 1), (24, 1), (25, 2), (29, 2), (30, 3), (34, 3), (35, 4),
              (39, 4), (40, 5), (44, 5), (45, 6), (150, 6))
    for deciding, want in bounds:
        same(rooms.grade_of_number(deciding), want, deciding)
    readings = 3 * [level(Fraction(tenths, 10)) for tenths in ISO_EXAMPLE]
    same(rooms.grade(rooms.OUTSIDE, readings, 48), (30, -2, -3, 27, 2, False))
    same(rooms.grade(rooms.INSIDE, readings, 48), (30, -2, -3, 28, 2, False))
    readings[47] = readings[47]._replace(mark=LIMIT)
    same(rooms.grade(rooms.INSIDE, readings, 48).limit, True)
    same(refusal_of(rooms.grade, rooms.INSIDE, readings, 47), 12)
    readings[40] = faulty(2)
    same(refusal_of(rooms.grade, rooms.OUTSIDE, readings, 48), 2)


# The lift list.

def test_lift_pencil():
    same(lift.listed(A3, pencil_set({}), 53), [])
    same(lift.listed(A3, pencil_set({7: -100}), 52), [128])
    same(lift.listed(A3, pencil_set({6: -80, 7: -80}), 52), [192])


def lifts_by_deficits(kind, values, target):
    """The list by what each band gains at the target: another way to the same."""
    position = target + 5 if kind.name == "I1" else target
    best = 1500 if kind.airborne else -200
    gains = [rating.deficit(kind, band, value, position)
             - rating.deficit(kind, band, best, position) for band, value in enumerate(values)]
    needed = total_deficit(kind, values, position) - kind.limit
    masks = []
    for size in (1, 2, 3):
        for bands in combinations(range(kind.bands), size):
            total = sum(gains[band] for band in bands)
            least_gain = min(gains[band] for band in bands)
            without_one = total - least_gain
            if total >= needed and (size == 1 or without_one < needed):
                masks.append(sum(2 ** band for band in bands))
    return masks


def test_lift_by_rating_and_by_deficits():
    listed = 0
    for kind in KINDS:
        sign = 1 if kind.airborne else -1
        for place, values in enumerate(varied_sets(10, kind, 24)):
            for better_by in (1, 1 + place % 5, 1 + place):
                target = rating_of(kind, values) + sign * better_by
                masks = lift.listed(kind, values, target)
                same(masks, lifts_by_deficits(kind, values, target), (kind.name, values, target))
                listed += len(masks)
    assert listed > 500, "too few sets were listed"


def test_lifted_band_may_keep_a_deficit():
    """At 150 a lifted high band still lacks 4 dB: the highest band alone is not enough."""
    values = 16 * [1500]
    values[7], values[15] = 1420, 1000
    deficits = [rating.deficit(A3, band, value, 150) for band, value in enumerate(values)]
    same((sum(deficits), deficits[15]), (840, 540))
    assert sum(deficits) - deficits[15] <= A3.limit, "the slip: gain taken as the whole deficit"
    same(lift.listed(A3, values, 150), [(1 << 7) + (1 << 15)])


def test_lift_all_singles_pairs_triples():
    for each, size, count in ((21, 1, 16), (22, 2, 120), (23, 3, 560), (24, 3, 560), (25, 3, 0)):
        for kind in (A3, I3):
            sign = 1 if kind.airborne else -1
            values = [10 * (40 + K) - sign * each for K in kind.reference]
            masks = lift.listed(kind, values, 40)
            same(len(masks), count, (kind.name, each))
            same({bin(mask).count("1") for mask in masks}, {size} if count else set())


def test_lift_places_are_enough():
    same(len(lift.candidate_sets(A3)), 696)
    same(len(lift.candidate_sets(I1)), 25)
    same(len(set(map(lift.mask_of, lift.candidate_sets(I3)))), 696)
    same([lift.mask_of(bands) for bands in lift.candidate_sets(A1)],
         [1, 2, 4, 8, 16, 3, 5, 9, 17, 6, 10, 18, 12, 20, 24,
          7, 11, 19, 13, 21, 25, 14, 22, 26, 28], "order")


def test_lift_refusals_and_the_lent_list():
    values = whole_set(pencil_set({7: -100}))
    wrong = whole_set(pencil_set({7: -1000}))
    for band_set, target, places, want in (
            (values, 52, 696, 0), (values, 52, 695, 10), (values, 51, 0, 8), (values, 50, 696, 8),
            (values, -100, 0, 8), (values, -101, 0, 9), (values, 201, 0, 9), (values, 200, 0, 10),
            (values, 200, 696, 0), (wrong, 201, 0, 4),
            (BandSet(wrong.values, 0, 15), 201, 0, 1)):
        lent = list(range(1000, 1000 + places))
        kept = list(lent)
        same(refusal_of(lift.lift_list, A3, band_set, target, lent), want, (target, places))
        if want or target == 200:
            same(lent, kept, "the lent list")
        else:
            same(lent, [128] + kept[1:], "the lent list")
    octaves = whole_set([10 * K + 600 for K in I1.reference])
    for target, places, want in ((52, 25, 0), (52, 24, 10), (53, 0, 8), (54, 0, 8), (-100, 24, 10),
                                 (-101, 0, 9)):
        same(refusal_of(lift.lift_list, I1, octaves, target, [0] * places), want, target)


# Lines and runs.

def test_whole_example():
    wanted = (b"A3\tK1\t0\t50\t0\t0\t5\t=\nA1\tK2\t0\t42\t-2\t-6\t0\t=\n"
              b"I3\tK3\t0\t78\t-10\t-\t13\t=\nA1\tK4\t1\n")
    same(answers_of(b"".join(whole_example())), wanted)
    same(whole_example()[1], b"A1\tK2\t24.0\t33.0\t40.0\t43.0\t44.0\n")


def test_band_texts_both_ways():
    """Accepted are exactly the texts of the bands, and they mean those bands."""
    written = {b"-": (None, False)}
    for tenths in range(-9999, 10000):
        for limit in (False, True):
            written[level_text(tenths, limit)] = (tenths, limit)
    same(len(written), 2 * 19999 + 1)
    for text, meaning in written.items():
        same(tuple(band_of_text(text)), meaning, text)
    for length in range(7):
        for letters in product(b"L-.019", repeat=length):
            text = bytes(letters)
            same(refusal_of(band_of_text, text), 0 if text in written else 11, text)
    for text in (b"5.0\n", b"5.0\r", b" 5.0", b"+5.0", b"5,0", b"l5.0", b"1000.0", b"\xb2.0"):
        same(refusal_of(band_of_text, text), 11, text)


def test_keys():
    for byte in range(256):
        allowed = bytes([byte]).isalnum() or byte == ord("-")
        same(KEY.fullmatch(bytes([byte])) is not None, allowed, byte)
    octaves = 5 * [400]
    for count in range(40):
        answer = answer_line(line_of(A1, b"k" * count, octaves))
        same(answer != NO_REQUEST, 1 <= count <= 32, count)


def test_requests_both_ways():
    seeded = Seeded(11)
    for _ in range(500):
        kind = seeded.pick(KINDS)
        key = any_key(seeded)
        bands = [(None, False) if seeded.chance(9) else
                 (seeded.between(-9999, 9999), seeded.chance(3))
                 for _ in range(seeded.between(1, 50))]
        texts = [b"-" if tenths is None else level_text(tenths, limit) for tenths, limit in bands]
        line = line_of_texts(kind.name.encode(), key, texts)
        request = request_of_line(line)
        same((request.kind, request.key), (kind, key))
        same([tuple(band) for band in request.bands], bands)


def test_lines_that_are_no_requests():
    good = b"A1\tK2\t24.0\t33.0\t40.0\t43.0\t44.0\n"
    differ(answer_line(good), NO_REQUEST)
    for line in (b"", b"\n", good[:-1], good[:-1] + b"\r\n", good + good, b"\n" + good,
                 good + b"\n", good[:-1] + b"\t\n", b"\t" + good, good.lower(),
                 good.replace(b"\t", b" "), good.replace(b"\t", b"\t\t", 1),
                 b"A1\tK2\n", b"A1\tK2\t\n", b"A1\n", b"A2" + good[2:],
                 good.replace(b"24.0", b"-0.0"), good.replace(b"24.0", b"L-0.0"),
                 good.replace(b"24.0", b"024.0"), good.replace(b"24.0", b"24"),
                 good.replace(b"24.0", b"24.00"), good.replace(b"K2", b"K\n2"),
                 good.replace(b"\t33.0", b"\n33.0"), b"\x00" + good, good[:-1] + b"\x00\n"):
        same(answer_line(line), NO_REQUEST, line)


def test_refused_requests():
    for texts, want in ((b"24.0\t33.0\t40.0\t43.0", 1), (b"-\t33.0\t40.0\t43.0", 1),
                        (b"150.1", 1), (b"24.0\t-\t40.0\t43.0\t44.0", 3),
                        (b"24.0\t-\t150.1\t43.0\t44.0", 3), (b"24.0\t150.1\t-\t43.0\t44.0", 4),
                        (b"24.0\t-20.1\t40.0\t43.0\t44.0", 4), (b"-\t-\t-\t-\t-", 3),
                        (b"999.9\t-\t-\t-\t-", 4), (b"L150.1\t-\t-\t-\t-", 4)):
        same(answer_line(b"I1\tkey\t" + texts + b"\n"), b"I1\tkey\t%d\n" % want, texts)
        same(answer_line(b"I1\tkey\t" + texts + b"\t00.0\n"), NO_REQUEST, "11 before all")


def test_answers_of_requests():
    same(answer_line(line_of(A1, b"k", [240, 330, 400, 430, 440], 0b10000)),
         b"A1\tk\t0\t42\t-2\t-6\t0\tL\n")
    same(answer_line(b"A3\tends\t" + b"\t".join(16 * [b"-20.0"]) + b"\n"),
         b"A3\tends\t0\t-20\t0\t0\t5\t=\n")
    same(answer_line(b"I1\tzero\t0.0\t-0.1\tL0.1\t0.0\t0.0\n").split(b"\t")[-1], b"L\n")


def test_length_of_a_line():
    for length in range(480, 530):
        line = line_of_length(b"A1", length)
        same(len(line), length)
        want = b"A1\t" + line.split(b"\t")[1] + b"\t1\n" if length <= 512 else NO_REQUEST
        same(answer_line(line), want, length)


def test_line_call_with_an_offset():
    line = whole_example()[3]
    answer = b"A1\tK4\t1\n"
    for size in range(14):
        for offset in range(16):
            output = bytearray(b"abcdefghijklmn"[:size])
            kept = bytes(output)
            refused = refusal_of(answer_line_into, line, output, offset)
            if offset + len(answer) <= size:
                same(refused, 0)
                same(bytes(output), kept[:offset] + answer + kept[offset + len(answer):])
            else:
                same(refused, 10, (size, offset))
                same(bytes(output), kept, "the output")


def test_runs():
    good, answer = whole_example()[1], b"A1\tK2\t0\t42\t-2\t-6\t0\t=\n"
    for data, wanted in (
            (b"", b""), (b"\n", NO_REQUEST), (b"\n\n\n", 3 * NO_REQUEST), (b"x", NO_REQUEST),
            (good, answer), (good + good[:-1], answer + NO_REQUEST),
            (good + b"\n" + good, answer + NO_REQUEST + answer),
            (b"z" * 200000 + b"\n" + good, NO_REQUEST + answer),
            (b"z" * 200000 + good, NO_REQUEST), (b"z" * 200000, NO_REQUEST),
            (good + b"\x00", answer + NO_REQUEST), (good[:-1] + b"\r\n", NO_REQUEST)):
        same(answers_of(data), wanted, data[:80])


def test_runs_answer_each_line_once_in_order():
    data = request_data()
    answers = answers_of(data).split(b"\n")
    asked = data.split(b"\n")
    same(answers.pop(), b"")
    same(len(answers), len(asked))
    same(data[-1:] != b"\n", True, "the last piece lacks its line feed")
    for line, answer in zip(asked[:-1], answers):
        same(answer + b"\n", answer_line(line + b"\n"))
    same(answers[-1] + b"\n", NO_REQUEST)
    same({answer.split(b"\t")[2] for answer in answers}, {b"0", b"1", b"3", b"4", b"11"})
    assert max(map(len, asked)) == 199999 and len(data) < 1200000


# The register.

OCTAVES = (240, 330, 400, 430, 440)


def call_of(customer, key, price, values=OCTAVES, number=1, marks=0):
    """A call with a set of its own length."""
    return register.Call(customer, key, number, whole_set(values, marks), price)


def memory_of(calls):
    """The bytes of a register that was opened and then got these calls, all accepted."""
    memory = bytearray(register.SIZE)
    for call in calls:
        register.bill_in(memory, call, register.BILL_PLACES)
    return memory


def same_bytes(have, want, about=""):
    """Fails unless both are equal; names the first place where they differ."""
    same(len(have), len(want), about)
    if have != want:
        place = next(place for place in range(len(have)) if have[place] != want[place])
        raise AssertionError(f"{about}: byte {place} is {have[place]}, not {want[place]}")


def charge_of(memory, call):
    """What a call is charged, or the number of its refusal, negative."""
    try:
        return register.bill_in(memory, call, register.BILL_PLACES)[1]
    except Refused as refused:
        return -refused.number


def test_register_opens_empty():
    memory = bytearray(b"x" * register.SIZE)
    register.open_in(memory)
    same_bytes(memory, bytes(57352))
    same(register.register_of_bytes(memory), {})
    same(register.owed_in(memory, 7, 1), 0)


def test_month_of_two_customers():
    """Charges and totals worked out by hand."""
    memory = bytearray(register.SIZE)
    for call, charge, totals in (
            (call_of(7, b"W-1", 500), 500, (500, 0)),
            (call_of(7, b"W-1", 500), 0, (500, 0)),
            (call_of(7, b"W-1", 900), 0, (500, 0)),
            (call_of(8, b"W-1", 900), 900, (500, 900)),
            (call_of(7, b"W-2", 0), 0, (500, 900)),
            (call_of(7, b"W-2", 300), 0, (500, 900)),
            (call_of(7, b"w-1", 20), 20, (520, 900)),
            (call_of(7, b"W-1", 500, values=(240, 330, 400, 430, 441)), -17, (520, 900)),
            (call_of(7, b"W-3", 1000001), -16, (520, 900)),
            (call_of(7, b"W-3", 1000000), 1000000, (1000520, 900)),
            (call_of(8, b"W-3", 5, values=4 * (400,)), -1, (1000520, 900)),
            (call_of(8, b"W-3", 5), 5, (1000520, 905))):
        same(charge_of(memory, call), charge, call)
        same(tuple(register.owed_in(memory, customer, 1) for customer in (7, 8)), totals, call)
    same(register.owed_in(memory, 9, 1), 0, "a customer without entries")
    entered = register.register_of_bytes(memory)
    same(list(entered), [(7, b"W-1"), (8, b"W-1"), (7, b"W-2"), (7, b"w-1"), (7, b"W-3"),
                         (8, b"W-3")])
    same([entry.price for entry in entered.values()], [500, 900, 0, 20, 1000000, 5])
    same_bytes(register.bytes_of_register(entered), memory)


def test_entry_byte_by_byte():
    """A key of two letters and five bands, typed as the layout has them."""
    memory = memory_of([call_of(0x0102, b"K2", 1000, marks=0xFFF1)])
    entry = (b"\x02\x01" + bytes(6) + b"K2" + bytes(30)
             + b"\xf0\0\0\0\x4a\x01\0\0\x90\x01\0\0\xae\x01\0\0\xb8\x01\0\0" + bytes(44)
             + b"\xe8\x03\0\0" + b"\x11\0" + b"\x02" + b"\x01")
    same(len(entry), 112)
    same_bytes(memory, entry + bytes(511 * 112) + b"\x01" + bytes(7))


def test_retry_gets_the_same_sheet():
    for number, kind in enumerate(KINDS):
        for values in varied_sets(13, kind, 6):
            call = call_of(1, b"k", 70, values, number, 1 << kind.bands - 1)
            memory = bytearray(register.SIZE)
            want = sheet_of(kind, call.band_set)
            same(register.bill_in(memory, call, 7), (want, 70))
            kept = bytes(memory)
            same(register.bill_in(memory, call._replace(price=71), 7), (want, 0))
            same_bytes(memory, kept, "after a retry")


def test_other_bands_or_kind():
    """What tells a retry from another request under its key."""
    memory = memory_of([call_of(1, b"k", 70, marks=0b00100)])
    kept = bytes(memory)
    again = call_of(1, b"k", 0, marks=0b00100)
    for call, charge in (
            (again, 0), (again._replace(band_set=whole_set(OCTAVES, 0xFFFFFFE4)), 0),
            (again._replace(band_set=whole_set(OCTAVES)), -17),
            (again._replace(band_set=whole_set(OCTAVES, 0b00101)), -17),
            (again._replace(number=3), -17),
            (again._replace(number=0, band_set=whole_set(16 * [400])), -17)):
        same(charge_of(memory, call), charge, call)
    for band in range(5):
        values = list(OCTAVES)
        values[band] += 1
        same(charge_of(memory, again._replace(band_set=whole_set(values, 0b00100))), -17, band)
    same_bytes(memory, kept)


def full_memory(first):
    """512 entries, the first of them this call's."""
    return memory_of([first] + [call_of(1, b"other-%d" % place, 1) for place in range(511)])


def test_full_register():
    known = call_of(7, b"known", 12)
    memory = full_memory(known)
    kept = bytes(memory)
    same(charge_of(memory, call_of(7, b"new", 12)), -18)
    same(charge_of(memory, call_of(1, b"known", 12)), -18)
    same(charge_of(memory, known), 0, "a retry is answered")
    same(charge_of(memory, call_of(7, b"known", 12, number=3)), -17)
    same((register.owed_in(memory, 7, 1), register.owed_in(memory, 1, 1)), (12, 511))
    same_bytes(memory, kept)


# Each changes a retry of a key in a full register so that it is refused with a number.
FAULTS = {
    11: lambda call: call._replace(key=b"kn own"),
    1: lambda call: call._replace(band_set=call.band_set._replace(length=4)),
    4: lambda call: call._replace(band_set=call.band_set._replace(values=5 * (1501,))),
    16: lambda call: call._replace(price=1000001),
    17: lambda call: call._replace(number=3),
    18: lambda call: call._replace(customer=8),
}
ORDER = (19, 11, 1, 4, 16, 17, 18, 10)


def refused_bill(memory, faults):
    """The number that a call with these faults is refused with, the register unchanged."""
    call = call_of(7, b"known", 12)
    memory = bytearray(memory)
    if 19 in faults:
        memory[register.COUNT_AT + 1] ^= 1
    for fault in faults:
        call = FAULTS.get(fault, lambda call: call)(call)
    kept = bytes(memory)
    number = refusal_of(register.bill_in, memory, call, 6 if 10 in faults else 7)
    same_bytes(memory, kept, faults)
    return number


def test_register_refusals_in_order():
    """Each alone, and of each two that can both apply the first."""
    memory = full_memory(call_of(7, b"known", 12))
    same(refused_bill(memory, ()), 0)
    for number in ORDER:
        same(refused_bill(memory, (number,)), number)
    never = ((11, 17), (17, 18))  # no key of another shape is known, and no known one is new
    for first, second in combinations(ORDER, 2):
        if (first, second) not in never:
            same(refused_bill(memory, (first, second)), first, (first, second))
    same(refusal_of(register.bill_in, memory, call_of(7, b"", 12, number=4), 7), 11)
    for number in (4, 255, 256, 257, 2 ** 32 - 1):
        call = call_of(7, b"known", 1000001, 5 * (1501,), number)
        same(refusal_of(register.bill_in, memory, call, 7), 1, "no kind")


def test_refusals_of_totals_in_order():
    """19, then 10; the register unchanged."""
    sound = memory_of([call_of(7, b"k", 12)])
    damaged = bytearray(sound)
    damaged[register.COUNT_AT + 1] = 2
    for call in (register.owed_in, register.close_in):
        for memory, places, number in ((sound, 0, 10), (damaged, 0, 19), (damaged, 1, 19)):
            kept = bytes(memory)
            same(refusal_of(call, memory, 7, places), number)
            same_bytes(memory, kept)


def test_keys_of_the_register():
    for key, want in ((b"", 11), (b"k" * 32, 0), (b"k" * 33, 11), (b"k" * 65, 11), (b"A-z0", 0),
                      (b"a_b", 11), (b"k\0", 11), (b"\0", 11), (b"k\n", 11), (b"\xe4", 11)):
        memory = bytearray(register.SIZE)
        same(refusal_of(register.bill_in, memory, call_of(7, key, 12), 7), want, key)
        same(memory[register.COUNT_AT], int(want == 0), key)


def damaged_by(memory, place, data):
    """The refusals of the calls on a register with some bytes replaced."""
    memory = bytearray(memory)
    memory[place:place + len(data)] = data
    kept = bytes(memory)
    numbers = {refusal_of(register.bill_in, memory, call_of(7, b"K1", 5), 7),
               refusal_of(register.owed_in, memory, 7, 1),
               refusal_of(register.close_in, memory, 7, 1)}
    if numbers == {19}:
        same_bytes(memory, kept, place)
    return numbers


def word_bytes(number, size=4):
    return number.to_bytes(size, "little", signed=number < 0)


def test_damages():
    """Each of the five, at every edge, in the first entry and the last."""
    thirds = tuple(range(300, 316))
    memory = memory_of([call_of(7, b"K1", 5), call_of(8, b"K" * 32, 5, thirds, 2)])
    same(damaged_by(memory, 0, b""), {0})
    for place, good, bad in (
            (register.COUNT_AT, (0, 1, 2), (513, 2 ** 32, 2 ** 63, 2 ** 64 - 1)),
            (104, (0, 1000000), (1000001, 2 ** 32 - 1)), (216, (0, 1000000), (1000001, 2 ** 31)),
            (40, (240,), (-201, 1501, -2 ** 31)), (56, (440,), (-201, 1501)),
            (60, (-201, 1501), ()), (152, (-200, 1500), (-201, 1501)),
            (212, (-200, 1500), (-201, 1501, 2 ** 31 - 1))):
        size = 8 if place == register.COUNT_AT else 4
        for numbers, want in ((good, {0}), (bad, {19})):
            for number in numbers:
                same(damaged_by(memory, place, word_bytes(number, size)), want, (place, number))
    for number in range(4, 256):
        same(damaged_by(memory, 111, bytes([number])), {19}, "kind")
    for length in (0, 3, 32, 33, 255):
        same(damaged_by(memory, 110, bytes([length])), {19}, "length over zeros")
    for length in range(256):
        want = {0} if 1 <= length <= 32 else {19}
        same(damaged_by(memory, 222, bytes([length])), want, "length over letters")
    for byte in range(256):
        allowed = KEY.fullmatch(bytes([byte])) is not None
        for place in (9, 151):
            same(damaged_by(memory, place, bytes([byte])), {0} if allowed else {19}, byte)
        same(damaged_by(memory, 10, bytes([byte])), {0}, "past the key")
    twice = bytes(memory[:112])
    same(damaged_by(memory, 112, twice), {19}, "one customer and key twice")
    same(damaged_by(memory, 112, word_bytes(8, 8) + twice[8:]), {0}, "another customer")
    same(damaged_by(memory, 112, twice[:10] + b"x" + twice[11:]), {19}, "past the key")
    same(damaged_by(memory, 112, twice[:10] + b"x" + twice[11:110] + b"\3\1"), {0}, "K1x")
    same(damaged_by(memory, 224, twice), {0}, "from the count on")


def test_what_never_matters_in_a_register():
    """Junk past keys, bands and count: the same answers, and it is left as it is."""
    calls = [call_of(7, b"K1", 5, marks=1), call_of(8, b"K1", 6, number=3)]
    memory = memory_of(calls)
    junk = bytearray(b"\xee" * register.SIZE)
    for start in (0, 112):
        for place, size in ((0, 10), (40, 20), (104, 4), (110, 2)):
            junk[start + place:start + place + size] = \
                memory[start + place:start + place + size]
        junk[start + 108:start + 110] = word_bytes(0xFFE0 | memory[start + 108], 2)
    junk[register.COUNT_AT:] = memory[register.COUNT_AT:]
    kept = bytes(junk)
    same([charge_of(junk, call) for call in calls], [0, 0])
    same([register.owed_in(junk, customer, 1) for customer in (7, 8)], [5, 6])
    same_bytes(junk, kept)
    new = call_of(7, b"K", 9)
    same(charge_of(junk, new), 9)
    want = bytearray(kept)
    want[224:336] = memory_of([new])[:112]
    want[register.COUNT_AT] = 3
    same_bytes(junk, want, "one entry and the count are written, nothing else")


# Month end.

def test_two_months_of_two_customers():
    """Charges, what is handed out and totals worked out by hand; a customer alone is closed."""
    memory = bytearray(register.SIZE)
    other = (250, 345, 420, 445, 460)
    for asked, answer, totals in (
            (7, 0, (0, 0)),
            (call_of(7, b"W-1", 500), 500, (500, 0)),
            (call_of(8, b"W-1", 900), 900, (500, 900)),
            (call_of(7, b"W-2", 30), 30, (530, 900)),
            (call_of(7, b"W-1", 500, other), -17, (530, 900)),
            (9, 0, (530, 900)),
            (7, 530, (0, 900)),
            (7, 0, (0, 900)),
            (call_of(8, b"W-1", 1), 0, (0, 900)),
            (call_of(8, b"W-1", 1, other), -17, (0, 900)),
            (call_of(7, b"W-1", 600, other), 600, (600, 900)),
            (call_of(7, b"W-1", 500), -17, (600, 900)),
            (call_of(7, b"W-2", 40), 40, (640, 900)),
            (8, 900, (640, 0)),
            (call_of(8, b"W-1", 2), 2, (640, 2)),
            (7, 640, (0, 2)),
            (8, 2, (0, 0))):
        closed = isinstance(asked, int)
        have = register.close_in(memory, asked, 1) if closed else charge_of(memory, asked)
        same(have, answer, asked)
        same(tuple(register.owed_in(memory, customer, 1) for customer in (7, 8)), totals, asked)
    same_bytes(memory, bytes(57352), "nothing stays of what was closed")


def test_closing_byte_by_byte():
    """The others' bytes move as they are; zeros up to the old count, and the rest as it was."""
    owners = (7, 8, 8, 7, 9, 7, 8)
    calls = [call_of(owner, b"K%d" % place, place) for place, owner in enumerate(owners)]
    memory = memory_of(calls)
    for start in range(0, 7 * 112, 112):
        memory[start + 12:start + 40] = bytes(range(start % 200, start % 200 + 28))
        memory[start + 60:start + 104] = (start + 1).to_bytes(44, "big")
    memory[7 * 112:9 * 112] = 224 * b"\xee"
    entries = [bytes(memory[start:start + 112]) for start in range(0, 9 * 112, 112)]
    for customer, total, kept in ((7, 8, (1, 2, 4, 6)), (8, 9, (0, 3, 4, 5)),
                                  (9, 4, (0, 1, 2, 3, 5, 6)), (10, 0, range(7)), (0, 0, range(7))):
        left = bytearray(memory)
        same(register.close_in(left, customer, 1), total, customer)
        want = b"".join(entries[place] for place in kept).ljust(7 * 112, b"\0")
        want += entries[7] + entries[8] + bytes(503 * 112) + bytes([len(kept)]) + bytes(7)
        same_bytes(left, want, customer)


def test_closing_makes_room():
    """A full register takes as many new keys as went, those of before among them, and no more."""
    memory = full_memory(call_of(7, b"known", 12))
    same(register.close_in(memory, 7, 1), 12)
    same(charge_of(memory, call_of(7, b"known", 13, number=3)), 13, "with another kind")
    same(charge_of(memory, call_of(7, b"new", 12)), -18)
    same(register.close_in(memory, 1, 1), 511)
    for place in range(511):
        same(charge_of(memory, call_of(8, b"other-%d" % place, 2)), 2, place)
    same(charge_of(memory, call_of(1, b"other-0", 2)), -18)
    same([register.close_in(memory, customer, 1) for customer in (1, 8, 7)], [0, 1022, 13])


# Totals by the calls and their answers alone.

class Books:
    """What each customer was charged and handed out, and the accepted calls not closed yet."""

    def __init__(self):
        self.accepted, self.charged, self.handed_out = [], {}, {}

    def take(self, step, answer):
        """Takes down a step that was not refused."""
        if step[0] == "bill":
            customer = step[1].customer
            self.accepted.append(step[1])
            self.charged[customer] = self.charged.get(customer, 0) + answer[1]
        elif step[0] == "close":
            customer = step[1]
            same(answer, self.total(customer), "handed out")
            self.accepted = [call for call in self.accepted if call.customer != customer]
            self.handed_out[customer] = self.handed_out.get(customer, 0) + answer

    def total(self, customer):
        """Since the last closing: each distinct key once, the first price counting."""
        prices = {}
        for call in self.accepted:
            if call.customer == customer:
                prices.setdefault(call.key, call.price)
        return sum(prices.values())

    def check(self, memory):
        """What was handed out and what is owed were charged, and the keys are those not closed."""
        for customer in {0, *self.charged, *self.handed_out}:
            owed = register.owed_in(memory, customer, 1)
            same(owed, self.total(customer), customer)
            same(self.handed_out.get(customer, 0) + owed, self.charged.get(customer, 0), customer)
        entered = register.register_of_bytes(memory)
        same(set(entered), {(call.customer, call.key) for call in self.accepted})
        same_bytes(register.bytes_of_register(entered), memory)


def outcome_of(memory, step):
    """The number a step is refused with or 0, and what it answers."""
    try:
        return 0, taken(memory, step)
    except Refused as refused:
        return refused.number, None


def test_totals_over_histories():
    """Since the register was opened empty, at the end and after each closing; every refusal."""
    met = set()
    for steps in histories(Seeded(14)):
        memory = bytearray(register.SIZE)
        books = Books()
        for step in steps:
            number, answer = outcome_of(memory, step)
            met.add((step[0], number))
            if step[0] in ("open", "put"):
                books = Books() if step[0] == "open" else None
            if books and number == 0:
                books.take(step, answer)
                if step[0] in ("close", "read"):
                    books.check(memory)
    for word, numbers in (("bill", {0, 1, 4, 10, 11, 16, 17, 18, 19}), ("owed", {0, 10, 19}),
                          ("close", {0, 10, 19})):
        same({number for one, number in met if one == word}, numbers, word)


# The stored inputs.

def test_seeded_numbers():
    seeded = Seeded(0)
    same([seeded.next(), seeded.next()], [0xE220A8397B1DCDAF, 0x6E789E6AA1B965F4])
    same(Seeded(1).some(16, range(16)), list(range(16)))


def test_bits_nearest():
    seeded = Seeded(12)
    for _ in range(500):
        value = Fraction(seeded.between(-10 ** 7, 10 ** 7), seeded.between(1, 10 ** 5))
        bits = bits_nearest(value)
        if value:
            off = abs(quantities.exact_value(bits) - value)
            for other in (bits - 1, bits + 1):
                assert off <= abs(quantities.exact_value(other) - value), value


def test_inputs_meet_every_refusal():
    """Each operation's cases are answered, and refused in every way it can be."""
    refusals = {1: {1, 4}, 2: {2, 3, 4}, 3: {1, 2, 3, 4}, 4: {2, 7}, 5: {4}, 6: {4, 5},
                7: {2, 4, 6, 7}, 8: {1, 4}, 9: {2, 3, 4, 12}, 10: {1, 4, 6}, 11: {2, 3, 4, 12},
                12: {1, 4, 8, 9, 10}}
    same(set(refusals), set(OPERATIONS))
    for operation, wanted in refusals.items():
        cases = inputs_of(operation)
        step = 1 if operation != 12 else 3
        same({answer_of_case(case)[0] for case in cases[::step]}, wanted | {0}, operation)


def test_inputs_meet_every_grade_bound():
    met = {(case[1], answer[4]) for case in inputs_of(11)
           for answer in [answer_of_case(case)] if answer[0] == 0}
    for side, deciding in product((0, 1), (19, 20, 24, 25, 29, 30, 34, 35, 39, 40, 44, 45)):
        assert (side, deciding) in met, (side, deciding)


def test_inputs_meet_every_tie():
    bits = {case[2] for case in inputs_of(2)}
    for quarters in range(-79, 600, 2):
        centre = bits_nearest(Fraction(quarters, 4))
        assert {centre - 1, centre, centre + 1} <= bits, quarters
    bits = {case[1] for case in inputs_of(4)}
    for eighths in range(1, 160, 2):
        centre = bits_nearest(Fraction(eighths, 8))
        assert {centre - 1, centre, centre + 1} <= bits, eighths


def values_of_case(operation, *numbers):
    """The kind and the values whose sheet a case of a rating, a cover or a grade asks for."""
    if operation == 1:
        kind = KINDS[numbers[0]]
        return kind, numbers[3:3 + kind.bands]
    if operation == 10:
        return I3, [floor - one for floor, one in zip(rooms.REFERENCE_FLOOR, numbers[2:])]
    readings = [Reading(*pair) for pair in zip(numbers[2::2], numbers[3::2])]
    return A3, rooms.specimens(readings, numbers[1]).values


def test_inputs_try_the_rounding_of_terms():
    """Enough stored sheets have a tie that another rule would round otherwise, in every term."""
    C_Ctr_thirds, C_Ctr_octaves = {(A3, 0), (A3, 1)}, {(A1, 0), (A1, 1)}
    impact = {(I3, 0), (I1, 0)}
    for operation, least, places in ((1, 100, C_Ctr_thirds | C_Ctr_octaves | impact),
                                     (10, 4, {(I3, 0)}), (11, 5, C_Ctr_thirds)):
        sheets = []
        for case in inputs_of(operation):
            if answer_of_case(case)[0] == 0:
                kind, values = values_of_case(*case)
                terms = terms_in_tenths(kind, values, rating_of(kind, values))
                sheets.append({(kind, place): tenths for place, tenths in enumerate(terms)})
        tied = sum(any(tenths % 10 == 5 for tenths in terms.values()) for terms in sheets)
        told = f"operation {operation}: {len(sheets)} sheets, {tied} with a tie"
        for rule in (half_up, half_down, half_away):
            other = [{place for place, tenths in terms.items()
                      if rule(tenths) != energies.whole_decibels(tenths)} for terms in sheets]
            count = sum(map(bool, other))
            told += f", {count} other by {rule.__name__}"
            assert count >= least, (operation, rule)
            same(set().union(*other), places, (operation, rule))
        print(told)


def test_inputs_meet_ties_of_deciding_numbers():
    """Some grade would have another deciding number if that were rounded after the sum."""
    others = 0
    for case in inputs_of(11):
        answer = answer_of_case(case)
        if answer[0] == 0:
            rated = answer[1]
            kind, values = values_of_case(*case)
            term = terms_in_tenths(kind, values, rated)[case[1] == rooms.OUTSIDE]
            others += energies.whole_decibels(10 * rated + term) != answer[4]
    assert others > 0, "no deciding number tells them apart"


def test_case_lines():
    pencil = " ".join(map(str, pencil_set({7: -100})))
    for asked, answer in (
            (f"1 0 16 0 {pencil}", "0 51 -3 -6 1 1 0"),
            ("1 2 16 1 " + " ".join(map(str, rooms.REFERENCE_FLOOR)), "0 78 -10 0 0 13 1"),
            (f"1 1 4 0 {pencil}", "1"), ("2 1 2147483648", "0 0 1"), ("2 2 0", "3"),
            ("4 1056964608", "0 50"), ("5 600 540", "0 587 1"), ("6 600 540", "0 587"),
            ("6 600 541", "5"), (f"12 0 16 0 52 696 {pencil}", "0 1 128"),
            (f"12 0 16 0 52 695 {pencil}", "10"), (f"12 0 16 0 200 696 {pencil}", "0 0")):
        same(answers_of_cases(asked + "\n"), answer + "\n", asked)


def main():
    passed = failed = 0
    for name, test in list(globals().items()):
        if not name.startswith("test_"):
            continue
        try:
            test()
            passed += 1
        except Exception:
            failed += 1
            print(f"{name} failed")
            traceback.print_exc(file=sys.stdout)
    print(f"{passed} passed, {failed} failed")
    return 1 if failed or not passed else 0


if __name__ == "__main__":
    sys.exit(main())
