"""Writes or checks the stored inputs and answers of the programs.

    python3 tests/reference/generate.py rate cases            writes them
    python3 tests/reference/generate.py --check rate cases    compares them

Each part is a folder of `crates` with a file `stdin` and a file `stdout`. With
--into DIR they stand below DIR instead.
"""

import argparse
import os
import sys
from itertools import zip_longest
from pathlib import Path

sys.dont_write_bytecode = True

from cases import answer_of_case, text_of_numbers
from paper.lines import answers_of
from inputs import inputs_of
from inputs.requests import request_data

# The operations whose cases the part `cases` holds.
OPERATIONS = tuple(range(1, 13))

CRATES = Path(__file__).resolve().parents[2] / "crates"


def rate_files(_operations):
    """The program `rate`: request lines and their answers."""
    data = request_data()
    return data, answers_of(data)


def cases_files(operations):
    """The program `cases`: whole numbers in, whole numbers out."""
    cases = [case for operation in operations for case in inputs_of(operation)]
    asked = "".join(text_of_numbers(case) for case in cases)
    answers = "".join(text_of_numbers(answer_of_case(case)) for case in cases)
    return asked.encode(), answers.encode()


PARTS = {"rate": rate_files, "cases": cases_files}


def write(path, wanted):
    """Writes a stored file."""
    path.parent.mkdir(parents=True, exist_ok=True)
    path.write_bytes(wanted)
    print(f"{path}: {len(wanted)} bytes written")
    return True


def check(path, wanted):
    """Compares a stored file with what it has to be."""
    if not path.is_file():
        print(f"{path}: missing")
        return False
    stored = path.read_bytes()
    if stored == wanted:
        print(f"{path}: as generated")
        return True
    number, have, want = first_difference(stored, wanted)
    print(f"{path}: differs at line {number}:\n  stored    {have!r}\n  generated {want!r}")
    return False


def first_difference(stored, wanted):
    """The first line that differs, its number from 1; None for a line that is not there."""
    pairs = zip_longest(stored.split(b"\n"), wanted.split(b"\n"))
    return next((number, shown(have), shown(want))
                for number, (have, want) in enumerate(pairs, 1) if have != want)


def shown(line):
    """The front of a line."""
    return line if line is None else line[:200]


def operations_of(text):
    """Operation numbers parted by commas."""
    return tuple(int(word) for word in text.split(","))


def main():
    parser = argparse.ArgumentParser(description=__doc__.splitlines()[0])
    parser.add_argument("parts", nargs="+", choices=sorted(PARTS))
    parser.add_argument("--check", action="store_true", help="compare, write nothing")
    parser.add_argument("--into", type=Path, default=CRATES, metavar="DIR",
                        help="the folder of the parts, in place of crates")
    parser.add_argument("--operations", type=operations_of, default=OPERATIONS, metavar="1,2,..",
                        help="the operations of the part cases")
    chosen = parser.parse_args()
    handle = check if chosen.check else write
    good = True
    for part in chosen.parts:
        for name, data in zip(("stdin", "stdout"), PARTS[part](chosen.operations)):
            path = Path(os.path.relpath(chosen.into / part / name))
            good = handle(path, data) and good
    return 0 if good else 1


if __name__ == "__main__":
    sys.exit(main())
