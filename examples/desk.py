"""A desk in one file: request lines on customers' bills, and no crash loses or doubles a charge.

    python3 desk.py --open                  makes the file, once, with an empty register
    python3 desk.py < requests > answers    answers lines until the input ends
    python3 desk.py --owed 1001             tells what customer 1001 owes
    python3 desk.py --close 1001            hands out what is owed; keys used before are new again
    python3 desk.py --closings 1001         tells all that was ever handed out

`--file PATH` names the file, desk.register if there is none. The library that this needs is made by
`make` in the repository, which writes target/native/libimbrolt.so; or `pip install` the wheel, which
has it. The system is a POSIX one.

Lines. A line is a customer number (0 to 2^64 - 1), a price in fen and a request line, parted by
tabs and ended by a line feed, at most 1024 bytes with it; numbers are decimal, without a needless
zero. Every line has one answer, in order: the answer line of the request with one more field, what
is charged now: the price for a new key, 0 where the same was asked before. A refused line is
answered as a refused request is, kind, key and number, and nothing is charged. Of the refusals that
are due the first is given:

    19          the file is damaged or gone; kind and key are `?` where the line does not tell them
    11          a line of another shape (`?`, `?`, 11), a last one without its line feed too
    1, 3, 4     those of rating
    16, 17, 18  those of the bill: price out of range, key used for something else, no room

Crashes. A charge is in the file before its answer goes out. Each change is written to a new file,
which then takes the place of the old one, so that a crash at any moment leaves the one or the other
whole. Who has no answer sends the line again, as often as it takes. A line whose charge cannot be
kept, for want of room say, has no answer: the desk complains and ends with status 1.

Closings. A closing has a number: the first from 1 on that the customer has not had, or the one that
is given, `--close 1001 202611` for a month say. Number and total are in the file before the total is
told, so that a crash loses none: who has no answer finds it by `--closings`, or asks once more with
the same number, for a closing that was made is told as it was and not made again. Close when all
requests of the customer are answered: one that is sent again after the closing counts as new.

Files. Several desks may work on one file, and closings be made meanwhile: they take turns, by a
lock on PATH.lock, which must not be removed. A file that is damaged is left alone, and `--open`
makes none where one stands. A file that is gone is no empty register, for what was charged would be
forgotten. Where 19 was given the status is 1. A file is for machines of one byte order.
"""

import argparse
import contextlib
import fcntl
import hashlib
import os
import re
import signal
import struct
import sys
from itertools import count
from pathlib import Path
from typing import NamedTuple

sys.path.insert(0, str(Path(__file__).resolve().parents[1] / "bindings" / "python"))

from imbrolt import ANSWER_MAX, Kind, Refusal, Refused, Register, answer_line

LONGEST_LINE = 1024  # with its line feed
MOST = 2 ** 64 - 1  # of customers and numbers of closings

LINE = re.compile(rb"(0|[1-9][0-9]*)\t(0|-?[1-9][0-9]*)\t(.*\n)", re.DOTALL)

# The file: head, register, closings, checksum of all that. Numbers are in the machine's byte order,
# as the register's are; in another order the version is another.
HEAD = struct.pack("=12sI", b"imbrolt-desk", 1)
CLOSING = struct.Struct("=QQQ")
CHECKSUM_SIZE = hashlib.sha256().digest_size

STOPS = (signal.SIGINT, signal.SIGTERM)


class Damaged(Refused):
    """The file is none that a desk left."""

    def __init__(self, reason):
        super().__init__(Refusal.REGISTER_DAMAGED)
        self.reason = reason

    def __str__(self):
        return f"{self.reason}: refusal {self.refusal}"


class Asked(NamedTuple):
    """A line: who asks, for how much, and the request line."""

    customer: int
    price: int
    request: bytes


class Ledger:
    """What a file keeps: the register, and by customer and number the totals of closings."""

    def __init__(self):
        self.register = Register()
        self.closings = {}

    def bill(self, asked):
        """What is charged now for a request line that rating accepts."""
        kind, key, *bands = asked.request.rstrip(b"\n").split(b"\t")
        values = [int(band.lstrip(b"L").replace(b".", b"")) for band in bands]
        marks = sum(1 << place for place, band in enumerate(bands) if band.startswith(b"L"))
        return self.register.bill(
            asked.customer, key, Kind[kind.decode()], values, asked.price, marks).charged

    def free_number(self, customer):
        """The first number of a closing that the customer has not had."""
        return next(number for number in count(1) if (customer, number) not in self.closings)

    def close(self, customer, number):
        """The total of a closing; it is made unless it was."""
        if (customer, number) not in self.closings:
            self.closings[customer, number] = self.register.close(customer)
        return self.closings[customer, number]

    def to_bytes(self):
        closings = (CLOSING.pack(*closing, total) for closing, total in self.closings.items())
        body = HEAD + self.register.to_bytes() + b"".join(closings)
        return body + hashlib.sha256(body).digest()

    @classmethod
    def from_bytes(cls, data):
        """The ledger of such bytes, and of no others."""
        body = data[len(HEAD):-CHECKSUM_SIZE]
        ledger = cls()
        try:
            ledger.register = Register.from_bytes(body[:Register.SIZE])
            closings = CLOSING.iter_unpack(body[Register.SIZE:])
        except (ValueError, struct.error):
            raise Damaged("it is damaged") from None
        ledger.closings = {(customer, number): total for customer, number, total in closings}
        if ledger.to_bytes() != data:
            raise Damaged("it is damaged")
        ledger.register.owed(0)  # refused where no calls could have left the register so
        return ledger


# The file.

@contextlib.contextmanager
def locked(path):
    """Keeps other desks off a file."""
    with open(f"{path}.lock", "ab") as lock:
        fcntl.flock(lock, fcntl.LOCK_EX)
        yield


def settle(folder):
    """Makes the names of a folder outlast a power cut."""
    handle = os.open(folder, os.O_RDONLY)
    try:
        os.fsync(handle)
    finally:
        os.close(handle)


def read(path):
    """The bytes of a file."""
    try:
        data = path.read_bytes()
    except FileNotFoundError:
        raise Damaged("there is none, --open makes one") from None
    settle(path.parent)  # the desk that wrote them may have died before it did so
    return data


def write(path, data):
    """Puts bytes in place of a file: whatever happens, it has the old ones or the new."""
    new = f"{path}.new"
    with open(new, "wb") as file:
        file.write(data)
        file.flush()
        os.fsync(file.fileno())
    os.replace(new, path)
    settle(path.parent)


@contextlib.contextmanager
def kept(path):
    """The ledger of a file, for one desk at a time. What was changed is in the file afterwards."""
    with locked(path):
        before = read(path)
        ledger = Ledger.from_bytes(before)
        yield ledger
        after = ledger.to_bytes()
        if after != before:
            write(path, after)


# Lines.

def lines_of(stream):
    """The lines of a stream with their line feeds; of one that is too long, the front without."""
    while line := stream.readline(LONGEST_LINE):
        rest = line
        while rest and not rest.endswith(b"\n"):
            rest = stream.readline(LONGEST_LINE)
        yield line


def asked_in(line):
    """What a line asks; a line of another shape has the empty request line."""
    match = LINE.fullmatch(line)
    if match is None or int(match[1]) > MOST:
        return Asked(0, 0, b"")
    return Asked(int(match[1]), int(match[2]), match[3])


def rated(request):
    """The fields of the answer line of a request line."""
    output = bytearray(ANSWER_MAX)
    length = answer_line(request, output)
    return bytes(output[:length]).rstrip(b"\n").split(b"\t")


class Desk:
    """Answers lines on the ledger of a file."""

    def __init__(self, path):
        self.path = path
        self.damaged = False

    def answer(self, line):
        """The answer to a line. What it charges is in the file."""
        asked = asked_in(line)
        fields = rated(asked.request)
        try:
            with kept(self.path) as ledger:
                if fields[2] == b"0":
                    fields.append(b"%d" % ledger.bill(asked))
        except Refused as refused:
            self.note(refused)
            fields[2:] = [b"%d" % refused.refusal]
        return b"\t".join(fields) + b"\n"

    def look(self):
        """Complains at once where the file is damaged."""
        try:
            with kept(self.path):
                pass
        except Refused as refused:
            self.note(refused)

    def note(self, refused):
        """Says that the file is damaged, once."""
        if refused.refusal is Refusal.REGISTER_DAMAGED and not self.damaged:
            self.damaged = True
            complain(self.path, refused)


# Commands.

@contextlib.contextmanager
def undisturbed():
    """Puts off signals to stop."""
    signal.pthread_sigmask(signal.SIG_BLOCK, STOPS)
    try:
        yield
    finally:
        signal.pthread_sigmask(signal.SIG_UNBLOCK, STOPS)


def serve(path):
    """Answers the lines of standard input; told to stop, it first answers the line in hand."""
    desk = Desk(path)
    desk.look()
    for line in lines_of(sys.stdin.buffer):
        with undisturbed():
            sys.stdout.buffer.write(desk.answer(line))
            sys.stdout.buffer.flush()
    return int(desk.damaged)


def make(path):
    """Makes a file with an empty register."""
    with locked(path):
        if path.exists():
            raise FileExistsError("it is there already")
        write(path, Ledger().to_bytes())


def owed(path, customer):
    with kept(path) as ledger:
        total = ledger.register.owed(customer)
    tell(customer, total)


def close(path, customer, number=None):
    with kept(path) as ledger:
        if number is None:
            number = ledger.free_number(customer)
        total = ledger.close(customer, number)
    tell(customer, number, total)


def closings(path, customer):
    with kept(path) as ledger:
        made = ledger.closings.items()
    for (closed, number), total in made:
        if closed == customer:
            tell(customer, number, total)


def tell(*numbers):
    print(*numbers, sep="\t", flush=True)


def complain(path, trouble):
    print(f"desk: {path}: {trouble}", file=sys.stderr, flush=True)


def number(text):
    """A customer number, or the number of a closing."""
    if re.fullmatch("[0-9]{1,20}", text) is None or int(text) > MOST:
        raise ValueError(text)
    return int(text)


def options_of(words):
    parser = argparse.ArgumentParser(prog="desk.py", description=__doc__.partition("\n")[0])
    parser.add_argument("--file", default="desk.register", metavar="PATH")
    command = parser.add_mutually_exclusive_group()
    command.add_argument("--open", action="store_true", help="make the file")
    command.add_argument("--owed", type=number, metavar="CUSTOMER")
    command.add_argument("--close", type=number, nargs="+", metavar=("CUSTOMER", "NUMBER"))
    command.add_argument("--closings", type=number, metavar="CUSTOMER")
    options = parser.parse_args(words)
    if options.close and len(options.close) > 2:
        parser.error("--close takes a customer and at most one number")
    return options


def run(options):
    """Does what is asked for; the status."""
    path = Path(options.file).resolve()
    if options.open:
        make(path)
    elif options.owed is not None:
        owed(path, options.owed)
    elif options.close is not None:
        close(path, *options.close)
    elif options.closings is not None:
        closings(path, options.closings)
    else:
        return serve(path)
    return 0


def stopped(stop, _frame):
    raise SystemExit(128 + stop)


def main(words=None):
    options = options_of(words)
    for stop in STOPS:
        signal.signal(stop, stopped)
    try:
        return run(options)
    except BrokenPipeError:
        # What nobody reads is let go; otherwise Python would write it once more at its end.
        os.dup2(os.open(os.devnull, os.O_WRONLY), sys.stdout.fileno())
    except (OSError, Refused) as trouble:
        complain(options.file, trouble)
    return 1


if __name__ == "__main__":
    sys.exit(main())
