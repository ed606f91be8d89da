"""Answers case lines: whole numbers in, the numbers of the C functions out.

    python3 tests/reference/cases.py < stdin > stdout

The operations and their numbers stand in README.md.
"""

import sys

sys.dont_write_bytecode = True

from paper import lift, quantities, rating, rooms
from paper.quantities import BandSet, KINDS, Reading, Refused


def readings_of(numbers):
    """Pairs of a mark and 32 bits."""
    return tuple(Reading(mark, bits) for mark, bits in zip(numbers[::2], numbers[1::2]))


def sheet_numbers(sheet):
    """A sheet's numbers: 0 for no second term, and after it whether there is one."""
    return [sheet.rating, sheet.first, sheet.second or 0, sheet.second is not None, sheet.shifts,
            sheet.limit]


def rate_tenths(kind, length, marks, *values):
    return sheet_numbers(rating.sheet_of(KINDS[kind], BandSet(values, marks, length)))


def take_in(mark, bits):
    return quantities.tenths_of_reading(Reading(mark, bits))


def rate_readings(kind, length, *pairs):
    kind = KINDS[kind]
    band_set = quantities.band_set_of_readings(readings_of(pairs), length, kind.bands)
    return sheet_numbers(rating.sheet_of(kind, band_set))


def take_in_time(bits):
    return [quantities.hundredths_of_time(bits)]


def correct_in_field(total, background):
    return rooms.field_corrected(total, background)


def correct_in_laboratory(total, background):
    return [rooms.laboratory_corrected(total, background)]


def difference_of_raw_band(*bits):
    return rooms.raw_band(*bits)


def octaves_of_thirds(length, marks, *values):
    means = rooms.octaves(BandSet(values, marks, length))
    return [*means.values, means.marks]


def means_of_specimens(length, *pairs):
    means = rooms.specimens(readings_of(pairs), length)
    return [*means.values, means.marks]


def improvement_of_cover(length, marks, *values):
    return rooms.cover(BandSet(values, marks, length))


def grade_of_specimens(side, length, *pairs):
    return rooms.grade(side, readings_of(pairs), length)


def lifts(kind, length, marks, target, places, *values):
    lent = [0] * places
    count = lift.lift_list(KINDS[kind], BandSet(values, marks, length), target, lent)
    return [count, *lent[:count]]


OPERATIONS = {
    1: rate_tenths,
    2: take_in,
    3: rate_readings,
    4: take_in_time,
    5: correct_in_field,
    6: correct_in_laboratory,
    7: difference_of_raw_band,
    8: octaves_of_thirds,
    9: means_of_specimens,
    10: improvement_of_cover,
    11: grade_of_specimens,
    12: lifts,
}


def answer_of_case(numbers):
    """The numbers of an answer: 0 and what was asked, or a refusal's number alone."""
    operation, *arguments = numbers
    try:
        return [0, *OPERATIONS[operation](*arguments)]
    except Refused as refused:
        return [refused.number]


def text_of_numbers(numbers):
    """Whole numbers parted by one space, ended by a line feed."""
    return " ".join(str(int(number)) for number in numbers) + "\n"


def answers_of_cases(text):
    """One answer line for each case line."""
    return "".join(text_of_numbers(answer_of_case([int(word) for word in line.split(" ")]))
                   for line in text.splitlines())


if __name__ == "__main__":
    sys.stdout.write(answers_of_cases(sys.stdin.read()))
