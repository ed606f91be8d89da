"""One good answer and the refusals of every call, by the examples of docs/API.md."""

import io
import math
import unittest

from common import ANSWER, DOOR, DOOR_SHEET, REQUEST, imbrolt, readings, refusal_of
from imbrolt import (
    MISSING, Bands, Cover, Decibels, Grade, Kind, Progress, Refusal, Sheet, Side, Tenths, Value,
    level, limit)

WALL = [310, 340, 370, 400, 430, 460, 490, 400, 510, 520, 530, 540, 540, 540, 540, 540]
WINDOW = readings(24.0, 22.0, 19.0, 18.0, 22.0, 26.0, 29.0, 32.0, 35.0, 37.0, 38.0, 38.0, 36.0,
                  33.0, 37.0, 42.0)
COVER = [0, 0, 0, 20, 60, 100, 140, 180, 220, 260] + 6 * [300]
FLOOR = [min(tenths, 720) for tenths in range(670, 750, 5)]


class Ratings(unittest.TestCase):
    def test_version(self):
        first, second, _ = map(int, imbrolt.__version__.split("."))
        self.assertEqual(imbrolt.version() // 100, 100 * first + second)

    def test_take_reading(self):
        for value, tenths in ((0.25, 3), (-0.25, -2)):
            self.assertEqual(imbrolt.take_reading(level(value)), Value(tenths, False))
        self.assertEqual(imbrolt.take_reading(limit(150)), Value(1500, True))
        for reading, refusal in ((MISSING, Refusal.READING_MISSING),
                                 (level(math.nan), Refusal.NOT_FINITE),
                                 (limit(-math.inf), Refusal.NOT_FINITE),
                                 (level(150.0625), Refusal.BAND_RANGE)):
            self.assertIs(refusal_of(imbrolt.take_reading, reading), refusal)

    def test_rate(self):
        self.assertEqual(imbrolt.rate(Kind.A1, DOOR), DOOR_SHEET)
        self.assertEqual(imbrolt.rate(Kind.A3, 16 * [500]), Sheet(50, 0, 0, 5, False))
        self.assertEqual(imbrolt.rate(Kind.I3, FLOOR), Sheet(78, -10, None, 13, False))
        self.assertIs(refusal_of(imbrolt.rate, Kind.A1, DOOR[:4]), Refusal.BAND_COUNT)
        self.assertIs(refusal_of(imbrolt.rate, Kind.A1, DOOR[:4] + [1501]), Refusal.BAND_RANGE)

    def test_terms_at_a_half(self):
        """Ctr of 0.5, C of -1.5, an impact term of 2.5 and C of -0.5 dB go to the even number."""
        for kind, values, sheet in (
                (Kind.A3, [*(15 * [500]), 430], Sheet(49, -1, 0, 6, False)),
                (Kind.A1, [360, *(4 * [500])], Sheet(51, -2, -4, 2, False)),
                (Kind.I3, [680, 660, 660, *(13 * [300])], Sheet(54, 2, None, 23, False)),
                (Kind.A3, [300, *(15 * [500])], Sheet(50, 0, -3, 4, False))):
            self.assertEqual(imbrolt.rate(kind, values), sheet)

    def test_marks(self):
        """Bit i is the mark of band i; those past the bands do not matter."""
        for marks, marked in ((1, True), (1 << 4, True), (-1, True), (1 << 5, False),
                              (1 << 16, False)):
            self.assertIs(imbrolt.rate(Kind.A1, DOOR, marks).limit, marked)

    def test_rate_readings(self):
        door = [level(24.0), level(33.04), limit(40.0), level(43.0), level(44.0)]
        self.assertEqual(imbrolt.rate_readings(Kind.A1, door), Sheet(42, -2, -6, 0, True))
        door[1] = MISSING
        self.assertIs(refusal_of(imbrolt.rate_readings, Kind.A1, door), Refusal.READING_MISSING)
        self.assertIs(refusal_of(imbrolt.rate_readings, Kind.A3, door), Refusal.BAND_COUNT)

    def test_cover(self):
        self.assertEqual(imbrolt.cover(COVER), Cover(19, -10, False))
        self.assertEqual(imbrolt.cover(COVER, 1 << 15), Cover(19, -10, True))
        for values, refusal in ((COVER[:15], Refusal.BAND_COUNT),
                                (COVER[:15] + [1501], Refusal.BAND_RANGE),
                                (COVER[:15] + [1500], Refusal.DERIVED_RANGE)):
            self.assertIs(refusal_of(imbrolt.cover, values), refusal)

    def test_lift(self):
        self.assertEqual(imbrolt.lift(Kind.A3, WALL, 52), [128])
        for values, target, refusal in ((WALL[:5], 52, Refusal.BAND_COUNT),
                                        ([1501] + WALL[1:], 52, Refusal.BAND_RANGE),
                                        (WALL, 201, Refusal.TARGET_RANGE),
                                        (WALL, 20, Refusal.TARGET_NOT_BETTER)):
            self.assertIs(refusal_of(imbrolt.lift, Kind.A3, values, target), refusal)


class Measured(unittest.TestCase):
    def test_correct_field(self):
        self.assertEqual(imbrolt.correct_field(600, 540), Value(587, True))
        self.assertEqual(imbrolt.correct_field(600, 500), Value(600, False))
        for levels in ((1501, 540), (600, -201)):
            self.assertIs(refusal_of(imbrolt.correct_field, *levels), Refusal.BAND_RANGE)

    def test_correct_laboratory(self):
        self.assertEqual(imbrolt.correct_laboratory(600, 540), 587)
        self.assertEqual(imbrolt.correct_laboratory(600, 450), 600)
        for levels, refusal in (((1501, 540), Refusal.BAND_RANGE),
                                ((600, 541), Refusal.BACKGROUND_TOO_NEAR)):
            self.assertIs(refusal_of(imbrolt.correct_laboratory, *levels), refusal)

    def test_standardized(self):
        self.assertEqual(imbrolt.standardized(90.0, 50.0, 30.0, 0.5), Value(400, False))
        for numbers, refusal in (((90, math.inf, 30, 0.5), Refusal.NOT_FINITE),
                                 ((90, 50, -21, 0.5), Refusal.BAND_RANGE),
                                 ((90, 50, 30, 0.05), Refusal.TIME_RANGE),
                                 ((150, -20, -20, 0.5), Refusal.DERIVED_RANGE)):
            self.assertIs(refusal_of(imbrolt.standardized, *numbers), refusal)

    def test_octaves(self):
        thirds = 5 * [300, 330, 360] + [0]
        self.assertEqual(imbrolt.octaves(thirds), Bands(5 * (323,), 0))
        self.assertEqual(imbrolt.octaves(thirds, 0b1000).marks, 0b10)
        self.assertIs(refusal_of(imbrolt.octaves, thirds[:5]), Refusal.BAND_COUNT)
        self.assertIs(refusal_of(imbrolt.octaves, thirds[:15] + [-201]), Refusal.BAND_RANGE)

    def test_specimens(self):
        three = [level(value) for value in (30.0, 31.0, 32.0) for _ in range(16)]
        self.assertEqual(imbrolt.specimens(three), Bands(16 * (309,), 0))
        self.assertIs(refusal_of(imbrolt.specimens, three[:47]), Refusal.SPECIMEN_COUNT)
        self.assertIs(refusal_of(imbrolt.specimens, three[:47] + [MISSING]),
                      Refusal.READING_MISSING)

    def test_grade(self):
        for side, deciding, grade in ((Side.OUTSIDE, 29, 2), (Side.INSIDE, 32, 3), (-1, 32, 3)):
            self.assertEqual(imbrolt.grade(side, 3 * WINDOW),
                             Grade(34, -2, -5, deciding, grade, False))
        self.assertIs(refusal_of(imbrolt.grade, Side.INSIDE, WINDOW), Refusal.SPECIMEN_COUNT)


class Lines(unittest.TestCase):
    def test_answer_line(self):
        output = bytearray(b"." * 20)
        self.assertEqual(imbrolt.answer_line(REQUEST, output, 2), 8)
        self.assertEqual(output, b".." + ANSWER + 10 * b".")

    def test_answer_line_without_room(self):
        output = bytearray(b"." * 9)
        for at in (2, 9, 10, 2 ** 64):
            self.assertIs(refusal_of(imbrolt.answer_line, REQUEST, output, at),
                          Refusal.OUTPUT_TOO_SMALL)
        self.assertIs(refusal_of(imbrolt.answer_line, REQUEST, bytearray()),
                      Refusal.OUTPUT_TOO_SMALL)
        self.assertEqual(output, 9 * b".")

    def test_answer_block(self):
        output = bytearray(64)
        self.assertEqual(imbrolt.answer_block(REQUEST + b"A1\tK2\t24.0", output),
                         Progress(26, 8, False))
        self.assertEqual(output[:8], ANSWER)
        self.assertEqual(imbrolt.answer_block(b"", output, last=True), Progress(0, 0, False))

    def test_too_long_a_line(self):
        """It is answered once, when its end is there, whatever true value says that it goes on."""
        output = bytearray(64)
        begun = imbrolt.answer_block(600 * b"x", output)
        self.assertIs(begun.skipping, True)
        ended = imbrolt.answer_block(b"x\n" + REQUEST, output, skipping=2 ** 32)
        self.assertIs(ended.skipping, False)
        self.assertEqual(begun.wrote + ended.wrote, len(b"?\t?\t11\n" + ANSWER))

    def test_answers(self):
        """Longer than a block, with a last line without its line feed."""
        stream = io.BytesIO(5000 * REQUEST + 1000 * b"x" + b"\n" + REQUEST[:-1])
        pieces = list(imbrolt.answers(stream))
        self.assertNotIn(b"", pieces)
        self.assertEqual(b"".join(pieces), 5000 * ANSWER + 2 * b"?\t?\t11\n")


class Quantities(unittest.TestCase):
    def test_a_stream_that_does_not_wait(self):
        class Waiting(io.RawIOBase):
            def read(self, _size=-1):
                return None

        with self.assertRaises(BlockingIOError):
            list(imbrolt.answers(Waiting()))

    def test_answers_say_their_quantity(self):
        sheet = imbrolt.rate(Kind.A1, DOOR)
        for number in (sheet.rating, sheet.first, sheet.second):
            self.assertIs(type(number), Decibels)
        for number in (imbrolt.take_reading(level(1)).tenths, imbrolt.correct_laboratory(600, 540),
                       *imbrolt.octaves(WALL).values):
            self.assertIs(type(number), Tenths)
        self.assertIs(type(imbrolt.correct_field(600, 540).limit), bool)

    def test_their_quantity_is_taken(self):
        self.assertEqual(imbrolt.rate(Kind.A1, map(Tenths, DOOR)), DOOR_SHEET)
        self.assertEqual(imbrolt.lift(Kind.A3, WALL, Decibels(52)), [128])


if __name__ == "__main__":
    unittest.main()
