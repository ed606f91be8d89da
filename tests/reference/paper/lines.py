"""Request lines, answer lines and whole runs.

Document 01, section "Request and answer lines".
"""

import re
from typing import NamedTuple

from .quantities import (
    BAND_COUNT, BAND_RANGE, BandSet, KINDS, Kind, NOT_A_REQUEST, OUTPUT_TOO_SMALL,
    READING_MISSING, Refused, in_range)
from .rating import sheet_of

LONGEST_LINE = 512

# "Key: 1 to 32 of ASCII letters, digits, hyphen."
KEY = re.compile(rb"[A-Za-z0-9-]{1,32}")

# "an optional L (limit), then an optional minus, 1 to 3 digits without a
# needless leading zero, a point, one digit"
LEVEL_TEXT = re.compile(rb"(L?)(-?)(0|[1-9][0-9]{0,2})\.([0-9])")


class Band(NamedTuple):
    """A band as the line has it: tenths (None for missing) and the limit mark."""

    tenths: object
    limit: bool


class Request(NamedTuple):
    """What a request line says."""

    kind: Kind
    key: bytes
    bands: tuple


def band_of_text(text):
    """A band's meaning, or refusal 11. `-0.0` and `L-0.0` are no bands."""
    if text == b"-":
        return Band(None, False)
    match = LEVEL_TEXT.fullmatch(text)
    if match is None or text in (b"-0.0", b"L-0.0"):
        raise Refused(NOT_A_REQUEST)
    limit, minus, whole, tenth = match.groups()
    tenths = 10 * int(whole) + int(tenth)
    return Band(-tenths if minus else tenths, limit == b"L")


def kind_of_text(text):
    """One of the four kinds, or refusal 11."""
    for kind in KINDS:
        if kind.name.encode() == text:
            return kind
    raise Refused(NOT_A_REQUEST)


def request_of_line(line):
    """Kind, key, one or more bands, parted by tabs, ended by a line feed: or 11.

    At most 512 bytes with the line feed. The shape of the whole line comes
    first, whatever the number of bands.
    """
    if len(line) > LONGEST_LINE or not line.endswith(b"\n"):
        raise Refused(NOT_A_REQUEST)
    fields = line[:-1].split(b"\t")
    if len(fields) < 3 or KEY.fullmatch(fields[1]) is None:
        raise Refused(NOT_A_REQUEST)
    kind = kind_of_text(fields[0])
    return Request(kind, fields[1], tuple(band_of_text(field) for field in fields[2:]))


def sheet_of_request(request):
    """Section "Refusal numbers": 1, then bands from the lowest, each 3, then 4."""
    bands = request.bands
    if len(bands) != request.kind.bands:
        raise Refused(BAND_COUNT)
    for band in bands:
        if band.tenths is None:
            raise Refused(READING_MISSING)
        if not in_range(band.tenths):
            raise Refused(BAND_RANGE)
    values = tuple(band.tenths for band in bands)
    marks = sum(1 << place for place, band in enumerate(bands) if band.limit)
    return sheet_of(request.kind, BandSet(values, marks, len(bands)))


def answer_text(*fields):
    """Fields parted by tabs, ended by a line feed."""
    return b"\t".join(fields) + b"\n"


def number_text(number):
    """A whole number in decimal digits, a minus where it is negative."""
    return str(number).encode()


NO_REQUEST_ANSWER = answer_text(b"?", b"?", number_text(NOT_A_REQUEST))


def answer_line(line):
    """The answer to one line: accepted, refused, or not a request."""
    try:
        request = request_of_line(line)
    except Refused:
        return NO_REQUEST_ANSWER
    head = (request.kind.name.encode(), request.key)
    try:
        sheet = sheet_of_request(request)
    except Refused as refused:
        return answer_text(*head, number_text(refused.number))
    second = b"-" if sheet.second is None else number_text(sheet.second)
    return answer_text(
        *head, b"0", number_text(sheet.rating), number_text(sheet.first), second,
        number_text(sheet.shifts), b"L" if sheet.limit else b"=")


def answer_line_into(line, output, offset):
    """The line call: writes the answer from the offset, answers its length.

    Refused only with 10: no room for the line with its line feed, or an offset
    beyond the end; the output is then untouched.
    """
    answer = answer_line(line)
    if offset > len(output) or len(output) - offset < len(answer):
        raise Refused(OUTPUT_TOO_SMALL)
    output[offset:offset + len(answer)] = answer
    return len(answer)


def lines_of(data):
    """A run's lines, each with its line feed; a last piece may lack it.

    Empty input has none.
    """
    pieces = data.split(b"\n")
    lines = [piece + b"\n" for piece in pieces[:-1]]
    if pieces[-1]:
        lines.append(pieces[-1])
    return lines


def answers_of(data):
    """The program `rate`: one answer for each line, in order."""
    return b"".join(answer_line(line) for line in lines_of(data))
