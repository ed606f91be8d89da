"""A desk is ended at each call that it makes, in turn, without a power cut and with one."""

import os
import signal
import sys
import tempfile
import unittest
from itertools import count
from pathlib import Path

from desks import DOOR_SHEET, desk, door_line, line_of, ran
from disk import Disk

CUSTOMER, BEFORE, PRICE = 7, 300, 500


def reaches_out(function):
    """Whether a built-in function can be noticed outside of its process."""
    module = function.__module__ or type(function.__self__).__module__
    return function is print or module in ("_io", "fcntl", "posix")


def end_at_call(place):
    """This process will end itself at the desk's call of that place, among those that reach out."""
    calls = count(1)

    def watch(frame, event, called):
        if event == "call":
            due = frame.f_code is Disk.fsync.__code__
        else:
            due = (event == "c_call" and frame.f_code.co_filename == desk.__file__
                   and reaches_out(called))
        if due and next(calls) == place:
            os.kill(os.getpid(), signal.SIGKILL)

    sys.setprofile(watch)


class Points(unittest.TestCase):
    def setUp(self):
        folder = tempfile.TemporaryDirectory()
        self.addCleanup(folder.cleanup)
        place, lasting = (Path(folder.name) / name for name in ("place", "lasting"))
        place.mkdir()
        lasting.mkdir()
        self.disk = Disk(place, lasting)
        self.file = place / "register"

    def ran(self, *words, data=b""):
        return ran(self.file, *words, data=data, first=self.disk.watch)

    def ended_at_each_call(self, *words, data=b""):
        """Ends a desk at each of its calls, and at none; each time also with a power cut."""
        whole = self.file.read_bytes() if self.file.exists() else None
        for place in count(1):
            for cut in (False, True):
                self.restore(whole)
                ended = ran(self.file, *words, data=data, first=lambda: self.start(place))
                if cut:
                    self.disk.cut()
                yield ended
            if ended.status != -signal.SIGKILL:
                self.assertGreater(place, 10)
                return

    def start(self, place):
        self.disk.watch()
        end_at_call(place)

    def restore(self, whole):
        if whole is None:
            self.file.unlink(missing_ok=True)
        else:
            self.file.write_bytes(whole)
        self.disk.keep_all()

    def test_request(self):
        """It is charged once, and what was answered stays so."""
        self.ran("--open")
        self.ran(data=door_line(CUSTOMER, BEFORE, b"before"))
        request = door_line(CUSTOMER, PRICE, b"door")
        charged, retried = (line_of(b"A1", b"door", *DOOR_SHEET, fen) for fen in (PRICE, 0))
        for ended in self.ended_at_each_call(data=request):
            told = ended.answers or self.ran(data=request).answers
            self.assertIn(told, [[charged]] if ended.answers else [[charged], [retried]])
            self.disk.cut()
            self.assertEqual(self.ran(data=request).answers, [retried])
            self.assertEqual(self.ran("--owed", "7").answers, [line_of(CUSTOMER, BEFORE + PRICE)])

    def test_closing(self):
        """It is made once, before it is told, and told as often as it is asked for."""
        self.ran("--open")
        self.ran(data=door_line(CUSTOMER, BEFORE, b"before"))
        close = ("--close", "7", "1")
        closing = line_of(CUSTOMER, 1, BEFORE)
        for ended in self.ended_at_each_call(*close):
            told = ended.answers or self.ran(*close).answers
            self.disk.cut()
            self.ran(data=door_line(CUSTOMER, PRICE, b"after"))
            self.assertEqual(told + self.ran(*close).answers, 2 * [closing])
            self.assertEqual(self.ran("--owed", "7").answers, [line_of(CUSTOMER, PRICE)])
            self.assertEqual(self.ran("--closings", "7").answers, [closing])

    def test_closing_without_number(self):
        """What it hands out is kept before it is told, or still owed."""
        self.ran("--open")
        self.ran(data=door_line(CUSTOMER, BEFORE, b"before"))
        closing = [line_of(CUSTOMER, 1, BEFORE)]
        for ended in self.ended_at_each_call("--close", "7"):
            made = self.ran("--closings", "7").answers
            self.assertIn(made, [closing] if ended.answers else [[], closing])
            self.assertIn(ended.answers, [[], closing])
            self.assertEqual(self.ran("--owed", "7").answers, [line_of(CUSTOMER, 0 if made else BEFORE)])

    def test_opening(self):
        """It leaves a whole file or none, and is asked for again."""
        for ended in self.ended_at_each_call("--open"):
            made = self.file.exists()
            self.assertTrue(made or ended.status)
            self.assertEqual(self.ran("--open").status, made)
            self.assertEqual(self.ran("--owed", "7").answers, [line_of(CUSTOMER, 0)])


if __name__ == "__main__":
    unittest.main()
