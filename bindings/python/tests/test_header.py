"""The package says what include/imbrolt.h says. (Words and sentences of refusals: tests/packages/test_words.py.)"""

import pickle
import re
import unittest

from common import ROOT, imbrolt
from imbrolt import Kind, Refusal, Refused, Register, Side, _calls, _library
from imbrolt._library import (
    bytes_at, f32, floats_at, i32, ints_at, longs_at, shorts_at, size, u32, u64)

HEADER = (ROOT / "include" / "imbrolt.h").read_text()

TYPES = {
    "uint32_t": u32, "int32_t": i32, "uint64_t": u64, "float": f32, "size_t": size,
    "uint8_t *": bytes_at, "uint16_t *": shorts_at, "int32_t *": ints_at, "uint64_t *": longs_at,
    "float *": floats_at, "imbrolt_register *": longs_at,
}


def body_of(enum):
    """The text between the brackets of an enum."""
    return re.search(rf"enum imbrolt_{enum} {{(.*?)}};", HEADER, re.DOTALL)[1]


def numbers_of(enum):
    return {name: int(number)
            for name, number in re.findall(r"IMBROLT_(\w+) = (\d+)", body_of(enum))}


def defined(name):
    return re.search(rf"#define IMBROLT_{name} (\S+)", HEADER)[1]


def type_of(parameter):
    """The type of a parameter, by its text without its name."""
    return TYPES[re.sub(r"\w+$", "", parameter.strip().replace("const ", "")).strip()]


def declarations():
    """By name, the types of a function's parameters."""
    found = re.findall(r"^uint32_t imbrolt_(\w+)\(([^)]*)\);", HEADER, re.MULTILINE)
    return {name: () if text == "void" else tuple(map(type_of, text.split(",")))
            for name, text in found}


def places():
    """By name, the places that a function's answer needs."""
    found = re.findall(r"/\* (imbrolt_[^*]*) \*/\nenum \w+ {[^}]*?_PLACES = (\d+)", HEADER)
    return {name: int(number) for comment, number in found
            for name in re.findall(r"imbrolt_(\w+)", comment) if name in declarations()}


class Header(unittest.TestCase):
    def test_choices(self):
        self.assertEqual({one.name: one for one in Kind}, numbers_of("kind"))
        self.assertEqual({one.name: one for one in Side}, numbers_of("side"))
        marks = {"LEVEL": imbrolt.level(0).mark, "LIMIT": imbrolt.limit(0).mark,
                 "MISSING": imbrolt.MISSING.mark}
        self.assertEqual(marks, numbers_of("mark"))

    def test_functions(self):
        self.assertEqual(_library.ARGUMENTS, declarations())
        self.assertEqual(set(_library.functions()), set(declarations()))

    def test_places(self):
        self.assertEqual(_library.PLACES, places())
        self.assertEqual(_calls.LIFT_PLACES, numbers_of("lifted")["LIFT_THIRDS_PLACES"])

    def test_sizes(self):
        self.assertEqual(imbrolt.LINE_MAX, int(defined("LINE_MAX")))
        self.assertEqual(imbrolt.ANSWER_MAX, int(defined("ANSWER_MAX")))
        self.assertIn(f"sizeof(imbrolt_register) == {Register.SIZE},", HEADER)

    def test_version(self):
        self.assertEqual(f'"{imbrolt.__version__}"', defined("VERSION_TEXT"))


class Refusals(unittest.TestCase):
    def test_refused(self):
        with self.assertRaises(Refused) as caught:
            imbrolt.take_reading(imbrolt.MISSING)
        refused = caught.exception
        self.assertIs(refused.refusal, Refusal.READING_MISSING)
        self.assertEqual(refused.sentence, "a reading is missing")
        self.assertEqual(str(refused), "refusal 3: a reading is missing")

    def test_unknown(self):
        """A number of a newer library is told as it is."""
        refused = Refused(99)
        self.assertEqual(refused.refusal, 99)
        self.assertEqual(str(refused), "refusal 99: this package does not know what for")

    def test_sent_on(self):
        """From one process to another, say."""
        for number in (3, 99):
            again = pickle.loads(pickle.dumps(Refused(number)))
            self.assertEqual((again.refusal, str(again)), (number, str(Refused(number))))


if __name__ == "__main__":
    unittest.main()
