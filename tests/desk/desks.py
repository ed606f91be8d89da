"""Desks to be tested: examples/desk.py on pipes, each in a process forked from the test."""

import importlib.util
import os
import signal
import sys
from contextlib import suppress
from pathlib import Path
from typing import NamedTuple

ROOT = Path(__file__).resolve().parents[2]


def desk_module():
    spec = importlib.util.spec_from_file_location("desk", ROOT / "examples" / "desk.py")
    module = importlib.util.module_from_spec(spec)
    spec.loader.exec_module(module)
    return module


desk = desk_module()
desk.Register()  # loads the library, once for all desks that are forked

DOOR = (b"24.0", b"33.0", b"40.0", b"43.0", b"44.0")
DOOR_SHEET = (b"0", b"42", b"-2", b"-6", b"0", b"=")


def line_of(*fields):
    """Fields parted by tabs, ended by a line feed; numbers in decimal."""
    texts = (b"%d" % field if isinstance(field, int) else field for field in fields)
    return b"\t".join(texts) + b"\n"


def door_line(customer, price, key):
    """A line that asks for the sheet of a door."""
    return line_of(customer, price, b"A1", key, *DOOR)


class Ended(NamedTuple):
    """What became of a desk: its status (below 0 where a signal ended it), answers, complaints."""

    status: int
    answers: list
    complaints: bytes


class Running:
    """A desk at work on a file. What `first` does, it does in the desk's process."""

    def __init__(self, file, *words, first=lambda: None):
        (given, self.input), (self.output, told), (self.errors, complained) = (
            os.pipe() for _ in range(3))
        self.pid = os.fork()
        if not self.pid:
            for handle, taken in enumerate((given, told, complained)):
                os.dup2(taken, handle)
            work(["--file", str(file), *words], first)
        for handle in (given, told, complained):
            os.close(handle)
        self.answers = os.fdopen(self.output, "rb")

    def send(self, data):
        """Sends lines. To a desk that has ended nothing can be sent: that is noticed by the missing answers."""
        with suppress(BrokenPipeError):
            os.write(self.input, data)

    def answer(self):
        """The next answer line, when it is there."""
        return self.answers.readline()

    def stop(self, number):
        os.kill(self.pid, number)

    def end(self):
        """Waits for its end, without more to send."""
        os.close(self.input)
        answers = []
        if not self.answers.closed:
            with self.answers:
                answers = [line for line in self.answers if line.endswith(b"\n")]
        with os.fdopen(self.errors, "rb") as errors:
            complaints = errors.read()
        _, status = os.waitpid(self.pid, 0)
        return Ended(os.waitstatus_to_exitcode(status), answers, complaints)

    def kill(self):
        self.stop(signal.SIGKILL)
        return self.end()


def work(words, first):
    """The life of a forked desk, on handles 0 to 2 alone: others belong to other desks."""
    status = 70
    signal.alarm(20)  # a desk that never answers ends, and its test with it
    try:
        os.closerange(3, 256)
        sys.stdin, sys.stdout, sys.stderr = open(0), open(1, "w"), open(2, "w")
        first()
        status = desk.main(words)
    except SystemExit as left:
        status = left.code
    finally:
        os._exit(status)


def ran(file, *words, data=b"", first=lambda: None):
    """What a desk answers to some lines."""
    running = Running(file, *words, first=first)
    running.send(data)
    return running.end()
