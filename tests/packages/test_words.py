"""Calls, refusals and sentences are the same on every surface: desk, header, Rust, Python, the pages."""

import re
import sys
import unittest
from pathlib import Path

ROOT = Path(__file__).resolve().parents[2]
sys.path.insert(0, str(ROOT / "bindings" / "python"))

import imbrolt  # noqa: E402


def text_of(name):
    return (ROOT / name).read_text()


def found(pattern, name):
    return re.findall(pattern, text_of(name), flags=re.M)


def passed_on(name):
    """The functions that a crate's root has of its modules."""
    lists = found(r"^pub use \w+::(\w+|\{[^}]*\});$", name)
    return {word for names in lists for word in re.findall(r"\w+", names)}


def shouted(word):
    """BandCount as BAND_COUNT."""
    return re.sub(r"(?<=[a-z])(?=[A-Z])|(?<=A)(?=[A-Z])", "_", word).upper()


class Refusals(unittest.TestCase):
    def setUp(self):
        """The proved library's own: number and word."""
        numbers = found(r"^ {4}(\w+) = (\d+),$", "crates/quantity/src/refusals.rt")
        self.refusals = {int(number): shouted(word) for word, number in numbers}
        self.assertEqual(sorted(self.refusals), [*range(1, 13), *range(16, 20)])
        entries = found(r"^    /\* (.*) \*/\n    IMBROLT_(\w+) = (\d+),?$", "include/imbrolt.h")
        self.header = {int(number): (word, sentence) for sentence, word, number in entries}

    def test_header(self):
        self.assertEqual({number: word for number, (word, _) in self.header.items()}, self.refusals)

    def test_rust(self):
        lines = found(r'^    (\w+) = (\d+), "(.*)";$', "bindings/rust/src/numbered.rs")
        self.assertEqual({int(number): (shouted(word), sentence) for word, number, sentence in lines}, self.header)

    def test_python(self):
        self.assertEqual({refusal.value: (refusal.name, refusal.sentence) for refusal in imbrolt.Refusal}, self.header)

    def test_other_readings(self):
        """The plain implementation and the reference."""
        plain = found(r"^pub const (\w+): u32 = (\d+);$", "tests/plain/src/refusal.rs")
        head = text_of("tests/reference/paper/quantities.py").partition("class Refused")[0]
        for lines in (plain, re.findall(r"^([A-Z_]+) = (\d+)$", head, flags=re.M)):
            self.assertEqual({int(number): word for word, number in lines}, self.refusals)

    def test_pages(self):
        """README's table has number, word and sentence of each."""
        rows = found(r"^\| (\d+) \| `(\w+)` \| (.*) \|$", "README.md")
        self.assertEqual({int(number): (word, sentence) for number, word, sentence in rows}, self.header)


class Calls(unittest.TestCase):
    def setUp(self):
        self.calls = passed_on("crates/desk/src/lib.rt")
        self.assertIn("answer_block", self.calls)

    def test_c(self):
        self.assertEqual({f"imbrolt_{call}" for call in self.calls},
                         passed_on("crates/desk_c/src/lib.rt"))
        self.assertEqual({f"imbrolt_{call}" for call in self.calls},
                         set(found(r"^uint32_t (imbrolt_\w+)\(", "include/imbrolt.h")))

    def test_rust(self):
        own = {"as_bytes", "from_bytes", "lift_into"}  # to keep a register and have it back; a list that is lent
        calls = set(found(r"^pub fn (\w+)", "bindings/rust/src/lib.rs"))
        calls |= set(found(r"^ *pub fn (\w+)", "bindings/rust/src/register.rs"))
        self.assertEqual(calls - own, self.calls)
        self.assertEqual(set(found(r"^pub fn (\w+)", "bindings/rust/src/door.rs")), self.calls)

    def test_plain_rust(self):
        self.assertEqual(set(found(r"^pub fn (\w+)", "tests/plain/src/door.rs")), self.calls - {"version"})

    def test_python(self):
        def functions(place):
            return {name for name in vars(place) if callable(getattr(place, name)) and not name.startswith("_")}

        own = {"answers", "level", "limit"}  # a whole stream; readings
        public = {name for name in imbrolt.__all__ if not isinstance(getattr(imbrolt, name), type)}
        calls = {name for name in public if callable(getattr(imbrolt, name))} - own
        calls |= functions(imbrolt.Register) - {"to_bytes", "from_bytes"}
        self.assertEqual(calls, self.calls)

    def test_pages(self):
        self.assertEqual(set(found(r"^### `(\w+)\(", "docs/API.md")), self.calls)
        table = text_of("README.md").partition("| call | what it answers |")[2].partition("\n\n")[0]
        rows = re.findall(r"^\| (`.*?`) \|", table, flags=re.M)
        self.assertEqual({name for row in rows for name in re.findall(r"\w+", row)}, self.calls)


if __name__ == "__main__":
    unittest.main()
