"""Sound insulation ratings in whole numbers: the calls of a proved library.

    >>> sheet = rate(Kind.A3, [204, 163, 177, 226, 224, 227, 248, 266,
    ...                        280, 305, 318, 325, 334, 330, 310, 255])
    >>> sheet.rating, sheet.first, sheet.second
    (30, -2, -3)

Measured values are whole tenths of a decibel, ratings, targets and terms whole decibels, prices
whole fen. Answers say which by their types, Tenths, Decibels and Fen, and none is taken for
another; a plain whole number is taken as what the call asks for. Limit marks of a set are one
number, bit i the mark of band i, band 0 the lowest. A call that is refused raises Refused, with
the library's refusal:

    >>> rate(Kind.A1, [240, 330, 400, 430])
    Traceback (most recent call last):
    ...
    imbrolt._types.Refused: refusal 1: the number of bands is not the kind's

The library is a shared object, libimbrolt.so. It is loaded at the first call: from the file that
the environment variable IMBROLT_LIBRARY names, and from no other where that is set; from this
folder, where a wheel has it; from target/native of the repository, where `make` writes it; from
where the system keeps its libraries. `python3 -m imbrolt` shows an example of each call.
"""

from ._calls import (
    answer_block, answer_line, answers, correct_field, correct_laboratory, cover, grade, lift,
    octaves, rate, rate_readings, specimens, standardized, take_reading, version)
from ._library import LibraryMismatch, LibraryNotFound
from ._register import Register, open_register
from ._types import (
    ANSWER_MAX, LINE_MAX, MISSING, Bands, Billed, Cover, Decibels, Fen, Grade, Kind, Progress,
    Reading, Refusal, Refused, Sheet, Side, Tenths, Value, level, limit)
from ._version import __version__

__all__ = [
    "ANSWER_MAX", "Bands", "Billed", "Cover", "Decibels", "Fen", "Grade", "Kind", "LINE_MAX",
    "LibraryMismatch", "LibraryNotFound", "MISSING", "Progress", "Reading", "Refusal", "Refused",
    "Register", "Sheet", "Side", "Tenths", "Value", "__version__", "answer_block", "answer_line",
    "answers", "correct_field", "correct_laboratory", "cover", "grade", "level", "lift", "limit",
    "octaves", "open_register", "rate", "rate_readings", "specimens", "standardized",
    "take_reading", "version",
]
