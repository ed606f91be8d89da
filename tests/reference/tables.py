"""Writes or checks the long tables of the crate `energy`: in the code, and once more in its logic.

    python3 tests/reference/tables.py            writes them
    python3 tests/reference/tables.py --check    compares them

Every entry is worked out here from its power rule (paper/energies.py).
"""

import argparse
import os
import sys
import textwrap
from pathlib import Path

sys.dont_write_bytecode = True

from generate import check, write
from paper.energies import F, G, H, c, k, u
from paper.search import least

ENERGY = Path(__file__).resolve().parents[2] / "crates" / "energy"

# The sums of one to sixteen energies, cut into stretches of which none holds more than three thresholds H(j).
ALONE, MOST = 10 ** 9, 16 * 10 ** 9
STRETCHES = (*range(ALONE >> 26 << 26, 2 ** 32, 2 ** 26), *range(2 ** 32, MOST + 1, 2 ** 28))


def least_time(step):
    """The least time, in hundredths of a second, that adds `step` tenths."""
    return least(lambda time: k(time) >= step, 10, 2000)


# The tables of a rating, which the code has one after another in one array: the name in the logic, how many entries stand on a
# line there, the sentence, the entries.
PARTS = (
    ("energies", 10, "F(0) to F(99)", [F(d) for d in range(100)]),
    ("levels", 10, "H(1) to H(123): the least sums that count one tenth more", [H(j) for j in range(1, 124)]),
    ("starts", 20, "u at the start of each stretch of sums: of 2 ^ 26 up to 2 ^ 32, and of 2 ^ 28 from there on",
     [u(max(start, ALONE)) for start in STRETCHES]),
)

# The tables of a mean, alike: two numbers that no sum of three goes past end the thresholds.
STEPS = [G(j) for j in range(48, 0, -1)]
MEAN_PARTS = (
    PARTS[0],
    ("means", 10, "G(48) to G(1): the greatest sums that still count a tenth", STEPS),
    ("ends", 10, "two numbers that no sum goes past", [3 * ALONE] * 2),
    ("turns", 20, "how many of these sums lie below the start of each stretch of 2 ^ 25",
     [sum(step <= start for step in STEPS) for start in range((ALONE - 1) >> 25 << 25, 3 * ALONE, 2 ** 25)]),
)

# The others: the name in the logic and in the code, the type of an entry, and the same.
TABLES = (
    ("backgrounds", "BACKGROUND", "u8", 10, "c(60) to c(149)", [c(d) for d in range(60, 150)]),
    ("times", "TIMES", "u64", 10,
     "the least times, in hundredths of a second, that add one tenth more, from k = -69 to k = 160",
     [least_time(step) for step in range(-69, 161)]),
)

CODE_HEAD = """\
// The long tables. They are worked out and written by tests/reference/tables.py; proved of each entry: its rule.
"""

LOGIC_HEAD = """\
-- The tables of the code once more, as lists, written by tests/reference/tables.py: their rules are proved of these, and the
-- code's tables are these by computation. Each entry is tested from both sides: it passes its rule and the number beside it
-- fails, and a rule that grows or falls all along has one such number only. So the proof fails if any one entry changes, in the
-- code alone or in the code and here.
use mathlib.Core.List.{List, [], ◌∷◌}
use Prim.Native.Nat.{ℕ}
"""


def sentence(text):
    """A comment of the code: a sentence."""
    return text[0].upper() + text[1:] + "."


def constant(name, kind, text, entries):
    """One constant array, filled up to 100 columns, as the formatter lays it out."""
    lines = textwrap.fill(", ".join(map(str, entries)) + ",", 100, initial_indent="    ", subsequent_indent="    ") + "\n"
    head = textwrap.fill(sentence(text), 128, initial_indent="// ", subsequent_indent="// ")
    return f"\n{head}\npub const {name}: [{kind}; {len(entries)}] = [\n{lines}];\n"


def joined(name, what, parts):
    """Tables one after another in one constant array."""
    text = f"{what}, each number by its low 32 bits: " + "; ".join(text for _, _, text, _ in parts)
    return constant(name, "u32", text, [number % 2 ** 32 for *_, entries in parts for number in entries])


def code():
    """The constants."""
    parts = [constant(name, kind, text, entries) for _, name, kind, _, text, entries in TABLES]
    return "".join([CODE_HEAD, joined("PARTS", "the tables for one set", PARTS),
                    joined("MEAN_PARTS", "the tables for means", MEAN_PARTS), *parts]).encode()


def listed(name, width, text, entries):
    """One list."""
    rows = [entries[at:at + width] for at in range(0, len(entries), width)]
    body = " ∷\n    ".join(" ∷ ".join(map(str, row)) for row in rows)
    return f"\n-- {text}\nunfoldable pub {name} : List ℕ\n{name} =\n    {body} ∷ []\n"


def logic():
    """The lists."""
    lists = [*PARTS, *MEAN_PARTS[1:]]
    lists += [(name, width, text, entries) for name, _, _, width, text, entries in TABLES]
    return "".join([LOGIC_HEAD, *(listed(*each) for each in lists)]).encode()


def main():
    parser = argparse.ArgumentParser(description=__doc__.splitlines()[0])
    parser.add_argument("--check", action="store_true", help="compare, write nothing")
    handle = check if parser.parse_args().check else write
    files = (("src/constants.rt", code()), ("proofs/Lists.antt", logic()))
    return 0 if all([handle(Path(os.path.relpath(ENERGY / path)), data) for path, data in files]) else 1


if __name__ == "__main__":
    sys.exit(main())
