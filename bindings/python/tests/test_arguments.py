"""What calls take and what not; then the library is not called, and nothing lent changes."""

import array
import unittest
from decimal import Decimal
from fractions import Fraction
from unittest import mock

from common import ANSWER, DOOR, DOOR_SHEET, REQUEST, imbrolt, readings, refusal_of
from imbrolt import Decibels, Fen, Kind, Reading, Refusal, Register, Side, Tenths, level

THIRDS = 16 * [300]
REGISTER = Register()
READINGS = readings(24.0, 33.0, 40.0, 43.0, 44.0)
WINDOW = 3 * readings(*range(30, 46))


def bill(**changes):
    call = {"customer": 7, "key": b"K2", "kind": Kind.A1, "values": DOOR, "price": 500, **changes}
    return REGISTER.bill(**call)


# Each call with one argument left open, by what is asked for there.

WHOLE = [
    lambda number: imbrolt.take_reading(Reading(number, 24.0)),
    lambda number: imbrolt.rate(number, DOOR),
    lambda number: imbrolt.rate(Kind.A1, [*DOOR[:4], number]),
    lambda number: imbrolt.rate(Kind.A1, DOOR, number),
    lambda number: imbrolt.rate_readings(number, READINGS),
    lambda number: imbrolt.rate_readings(Kind.A1, [*READINGS[:4], Reading(number, 44.0)]),
    lambda number: imbrolt.cover([*THIRDS[:15], number]),
    lambda number: imbrolt.cover(THIRDS, number),
    lambda number: imbrolt.correct_field(number, 540),
    lambda number: imbrolt.correct_field(600, number),
    lambda number: imbrolt.correct_laboratory(number, 540),
    lambda number: imbrolt.correct_laboratory(600, number),
    lambda number: imbrolt.octaves([*THIRDS[:15], number]),
    lambda number: imbrolt.octaves(THIRDS, number),
    lambda number: imbrolt.grade(number, WINDOW),
    lambda number: imbrolt.lift(number, DOOR, 50),
    lambda number: imbrolt.lift(Kind.A1, [*DOOR[:4], number], 50),
    lambda number: imbrolt.lift(Kind.A1, DOOR, number),
    lambda number: imbrolt.answer_line(REQUEST, bytearray(64), number),
    lambda number: bill(customer=number),
    lambda number: bill(kind=number),
    lambda number: bill(values=[*DOOR[:4], number]),
    lambda number: bill(price=number),
    lambda number: bill(marks=number),
    REGISTER.owed,
    REGISTER.close,
]
TENTHS = [
    lambda number: imbrolt.rate(Kind.A1, [*DOOR[:4], number]),
    lambda number: imbrolt.cover([*THIRDS[:15], number]),
    lambda number: imbrolt.correct_field(number, 540),
    lambda number: imbrolt.correct_laboratory(600, number),
    lambda number: imbrolt.octaves([*THIRDS[:15], number]),
    lambda number: imbrolt.lift(Kind.A1, [*DOOR[:4], number], 50),
    lambda number: bill(values=[*DOOR[:4], number]),
]
REAL = [
    lambda value: imbrolt.take_reading(level(value)),
    lambda value: imbrolt.rate_readings(Kind.A1, [*READINGS[:4], level(value)]),
    lambda value: imbrolt.specimens([*WINDOW[:47], level(value)]),
    lambda value: imbrolt.grade(Side.INSIDE, [*WINDOW[:47], level(value)]),
    lambda value: imbrolt.standardized(value, 50, 30, 0.5),
    lambda value: imbrolt.standardized(90, value, 30, 0.5),
    lambda value: imbrolt.standardized(90, 50, value, 0.5),
    lambda value: imbrolt.standardized(90, 50, 30, value),
]
READING = [
    imbrolt.take_reading,
    lambda reading: imbrolt.rate_readings(Kind.A1, [*READINGS[:4], reading]),
    lambda reading: imbrolt.specimens([*WINDOW[:47], reading]),
    lambda reading: imbrolt.grade(Side.INSIDE, [*WINDOW[:47], reading]),
]
BYTES = [
    lambda data: imbrolt.answer_line(data, bytearray(64)),
    lambda data: imbrolt.answer_block(data, bytearray(64)),
    lambda data: bill(key=data),
    Register.from_bytes,
]
OUTPUT = [
    lambda output: imbrolt.answer_line(REQUEST, output),
    lambda output: imbrolt.answer_block(REQUEST, output),
]


class Wrong(unittest.TestCase):
    def assert_wrong(self, calls, *arguments, error=TypeError, text=""):
        """Each call fails with each argument, and the library is not called."""
        with mock.patch.object(imbrolt._library, "functions", side_effect=AssertionError):
            for place, call in enumerate(calls):
                for argument in arguments:
                    with self.subTest(place=place, argument=argument):
                        with self.assertRaisesRegex(error, text):
                            call(argument)

    def test_no_whole_number(self):
        self.assert_wrong(WHOLE, 24.9, 24.0, "24", b"24", None, Decimal(24), Fraction(24), [24])

    def test_another_quantity(self):
        self.assert_wrong(TENTHS, Decibels(52), text="Decibels given for Tenths")
        self.assert_wrong(TENTHS, Fen(52), text="Fen given for Tenths")
        targets = [lambda number: imbrolt.lift(Kind.A1, DOOR, number)]
        self.assert_wrong(targets, Tenths(520), text="Tenths given for Decibels")
        prices = [lambda number: bill(price=number)]
        self.assert_wrong(prices, Decibels(500), text="Decibels given for Fen")

    def test_no_list(self):
        self.assert_wrong([lambda values: imbrolt.rate(Kind.A1, values)], 240, None, "24033")

    def test_no_real_number(self):
        self.assert_wrong(REAL, "24.9", b"24.9", bytearray(b"24.9"), None, [24.9],
                          text="a real number is asked for")
        self.assert_wrong(REAL, 1j)

    def test_no_reading(self):
        self.assert_wrong(READING, 24.9, (0, 24.9), None, "24.9", text="a reading is asked for")

    def test_no_bytes(self):
        self.assert_wrong(BYTES, "K2", text="bytes are asked for, not text")
        self.assert_wrong(BYTES, 5, None, [75, 50])

    def test_no_output(self):
        self.assert_wrong(OUTPUT, bytes(64), memoryview(bytes(64)), array.array("i", 64 * [0]),
                          text="can be written")
        self.assert_wrong(OUTPUT, "text", 64, None, memoryview(bytearray(64))[::2])

    def test_offset_before_the_front(self):
        output = bytearray(64)
        self.assert_wrong([lambda at: imbrolt.answer_line(REQUEST, output, at)], -1, -2 ** 64,
                          error=ValueError, text="before the front")
        self.assertEqual(output, bytes(64))

    def test_no_customer(self):
        calls = [lambda number: bill(customer=number), REGISTER.owed, REGISTER.close]
        self.assert_wrong(calls, -1, 2 ** 64, error=OverflowError, text="does not fit 64 bits")


class Numbers(unittest.TestCase):
    def test_whole_numbers_of_other_types(self):
        class Whole:
            def __index__(self):
                return 1

        self.assertEqual(imbrolt.rate(Whole(), DOOR, Whole()), DOOR_SHEET._replace(limit=True))
        self.assertEqual(imbrolt.rate(True, array.array("h", DOOR)), DOOR_SHEET)
        self.assertEqual(imbrolt.rate(1, iter(DOOR)), DOOR_SHEET)

    def test_past_32_bits(self):
        """Nothing is cut off that would make it another number."""
        inside = imbrolt.grade(Side.INSIDE, WINDOW).deciding
        self.assertNotEqual(inside, imbrolt.grade(Side.OUTSIDE, WINDOW).deciding)
        for past in (2 ** 32, -2 ** 32, 2 ** 64, -2 ** 64):
            self.assertIs(refusal_of(imbrolt.rate, past + 1, DOOR), Refusal.BAND_COUNT)
            self.assertIs(refusal_of(imbrolt.rate, Kind.A1, [*DOOR[:4], past + 440]),
                          Refusal.BAND_RANGE)
            self.assertIs(refusal_of(imbrolt.correct_field, past + 600, 540), Refusal.BAND_RANGE)
            self.assertIs(refusal_of(imbrolt.lift, Kind.A1, DOOR, past + 50), Refusal.TARGET_RANGE)
            self.assertIs(refusal_of(lambda: bill(price=past + 500)), Refusal.PRICE_RANGE)
            self.assertEqual(imbrolt.grade(past, WINDOW).deciding, inside)

    def test_no_mark(self):
        """A reading with a mark that is none is missing."""
        for mark in (2, 3, -1, 256, 257, 2 ** 32, -2 ** 40):
            self.assertIs(refusal_of(imbrolt.take_reading, Reading(mark, 24.0)),
                          Refusal.READING_MISSING)
            self.assertIs(refusal_of(imbrolt.rate_readings, Kind.A1,
                                     [*READINGS[:4], Reading(mark, 44.0)]),
                          Refusal.READING_MISSING)

    def test_real_numbers_of_other_types(self):
        for value in (24, Decimal("24"), Fraction(24), Tenths(24), 24.04):
            self.assertEqual(imbrolt.take_reading(level(value)).tenths, 240)

    def test_no_finite_float(self):
        """What is too great becomes infinite: refused, and no error of Python's."""
        for value in (1e39, -1e39, 1e308, 10 ** 400, -10 ** 400, Fraction(10 ** 400),
                      Decimal("1e400"), Decimal("sNaN"), float("nan")):
            for call in REAL:
                self.assertIs(refusal_of(call, value), Refusal.NOT_FINITE)

    def test_greatest_floats(self):
        """Finite ones, the greatest and a number that is rounded to it, are out of range."""
        for value in (3.4028234663852886e38, 3.40282350e38):
            self.assertIs(refusal_of(imbrolt.take_reading, level(value)), Refusal.BAND_RANGE)


class Bytes(unittest.TestCase):
    def test_given(self):
        """Bytes of any type, each other one of a longer row too."""
        row = bytes(byte for pair in zip(REQUEST, REQUEST) for byte in pair)
        for data in (REQUEST, bytearray(REQUEST), memoryview(REQUEST), array.array("B", REQUEST),
                     memoryview(row)[::2]):
            output = bytearray(64)
            self.assertEqual(imbrolt.answer_line(data, output), 8)
            self.assertEqual(output[:8], ANSWER)

    def test_lent(self):
        for output in (bytearray(64), array.array("B", bytes(64)), array.array("b", bytes(64))):
            self.assertEqual(imbrolt.answer_line(REQUEST, output), 8)
            self.assertEqual(bytes(output)[:8], ANSWER)

    def test_a_part_is_lent(self):
        memory = bytearray(b"." * 20)
        self.assertEqual(imbrolt.answer_line(REQUEST, memoryview(memory)[4:12]), 8)
        self.assertEqual(memory, b"...." + ANSWER + b"........")

    def test_given_and_lent(self):
        """What is asked may stand where the answer goes."""
        memory = bytearray(REQUEST)
        self.assertEqual(imbrolt.answer_line(memory, memory), 8)
        self.assertEqual(memory, ANSWER + REQUEST[8:])
        memory = bytearray(REQUEST)
        self.assertEqual(imbrolt.answer_block(memory, memory), (26, 8, False))

    def test_lent_for_the_call_alone(self):
        """An output that was too small can be made longer where the refusal is handled."""
        output = bytearray(4)
        try:
            imbrolt.answer_line(REQUEST, output)
        except imbrolt.Refused:
            output.extend(bytes(4))
        self.assertEqual(imbrolt.answer_line(REQUEST, output), 8)
        output.clear()


if __name__ == "__main__":
    unittest.main()
