"""A desk's answers, its file, its closings and its ends, one after the other."""

import random
import resource
import select
import signal
import subprocess
import sys
import tempfile
import unittest
from hashlib import sha256
from pathlib import Path

from desks import DOOR, DOOR_SHEET, Running, desk, door_line, line_of, ran

GREATEST_PRICE = 1_000_000
NO_REQUEST = line_of(b"?", b"?", 11)


def charged(key, fen):
    return line_of(b"A1", key, *DOOR_SHEET, fen)


def has_open(pid, path):
    """Whether a process has a file open."""
    handles = Path(f"/proc/{pid}/fd")
    return any(handle.resolve() == Path(path).resolve() for handle in handles.iterdir())


def refused(key, number):
    return line_of(b"A1", key, number)


class WithFile(unittest.TestCase):
    def setUp(self):
        folder = tempfile.TemporaryDirectory()
        self.addCleanup(folder.cleanup)
        self.file = Path(folder.name) / "register"
        self.assertEqual(self.ran("--open"), (0, [], b""))

    def ran(self, *words, data=b"", first=lambda: None):
        return ran(self.file, *words, data=data, first=first)

    def answers(self, *lines):
        """The answers to lines, without complaint."""
        ended = self.ran(data=b"".join(lines))
        self.assertEqual((ended.status, ended.complaints), (0, b""))
        return ended.answers

    def assert_told(self, words, *rows):
        self.assertEqual(self.ran(*words), (0, [line_of(*row) for row in rows], b""))

    def assert_complains(self, *words):
        ended = self.ran(*words)
        self.assertEqual((ended.status, ended.answers), (1, []))
        self.assertTrue(ended.complaints)


class Lines(WithFile):
    def test_example(self):
        """The example of document 01, on a bill, and sent again."""
        floor = [b"%d.%d" % divmod(min(tenths, 720), 10) for tenths in range(670, 750, 5)]
        requests = [line_of(7, 500, b"A3", b"K1", *16 * [b"50.0"]), door_line(7, 300, b"K2"),
                    line_of(7, 0, b"I3", b"K3", *floor),
                    line_of(7, 200, b"A1", b"K4", *DOOR[:4])]
        sheets = [(b"A3", b"K1", 0, 50, 0, 0, 5, b"="), (b"A1", b"K2", 0, 42, -2, -6, 0, b"="),
                  (b"I3", b"K3", 0, 78, -10, b"-", 13, b"=")]
        for charges in ((500, 300, 0), (0, 0, 0)):
            self.assertEqual(self.answers(*requests), [
                *(line_of(*sheet, fen) for sheet, fen in zip(sheets, charges)), refused(b"K4", 1)])
        self.assert_told(("--owed", "7"), (7, 800))

    def test_other_shapes(self):
        """Each is answered, with 11, and the line behind it as if it had not been there."""
        request = line_of(b"A1", b"K", *DOOR)
        fronts = [b"", b"7\t", b"7\t\t", b"\t500\t", b" 7\t500\t", b"7\t5e2\t", b"07\t500\t",
                  b"7\t0500\t", b"7\t-0\t", b"-7\t500\t", b"+7\t500\t", b"7\t5_00\t",
                  b"%d\t500\t" % 2 ** 64, "\u0667\t500\t".encode(), b"7\t500\t\xff\xfe"]
        requests = [b"\n", request[:-1] + b"\r\n", request[:-1] + b"\t\n",
                    line_of(b"A2", b"K", *DOOR), line_of(b"A1", b"no_key", *DOOR),
                    line_of(b"A1", b"K", b"-0.0"), line_of(b"A3", b"K", *120 * [b"50.0"])]
        shapes = [b"\n", b"\t\n", b"\t\t\n", b"\0\n", b"7\n", b"7\t500\n", 1_000_000 * b"7" + b"\n",
                  *(front + request for front in fronts),
                  *(b"7\t500\t" + other for other in requests)]
        after = door_line(7, 1, b"after")
        answers = self.answers(after, *(shape + after for shape in shapes))
        self.assertEqual(answers[1::2], [NO_REQUEST] * len(shapes))
        self.assertEqual(set(answers[2::2]), {charged(b"after", 0)})

    def test_no_line_feed(self):
        self.assertEqual(self.answers(door_line(7, 1, b"K")[:-1]), [NO_REQUEST])
        self.assertEqual(self.answers(5000 * b"7"), [NO_REQUEST])
        self.assertEqual(self.answers(), [])

    def test_longest_line(self):
        empty = line_of(7, b"", b"A1", b"K", *DOOR)
        prices = [b"9" * (length - len(empty)) for length in (1024, 1025, 2048)]
        lines = [line_of(7, price, b"A1", b"K", *DOOR) for price in prices]
        self.assertEqual(self.answers(*lines), [refused(b"K", 16), NO_REQUEST, NO_REQUEST])

    def test_ends_of_ranges(self):
        most = 2 ** 64 - 1
        outside = (-1, GREATEST_PRICE + 1, 2 ** 40)
        self.assertEqual(
            self.answers(*(door_line(most, price, b"K") for price in outside),
                         door_line(most, GREATEST_PRICE, b"K"), door_line(0, 0, b"K")),
            [*3 * [refused(b"K", 16)], charged(b"K", GREATEST_PRICE), charged(b"K", 0)])
        self.assert_told(("--owed", str(most)), (most, GREATEST_PRICE))

    def test_order_of_refusals(self):
        """Those of rating before those of the bill; 16 before 17 before 18."""
        full = desk.Ledger()
        for number in range(512):
            full.register.bill(7, b"K%d" % number, desk.Kind.A1, [240, 330, 400, 430, 440], 1)
        self.file.write_bytes(full.to_bytes())
        ends = [(-1, ()), (-1, (b"-",)), (-1, (b"150.1",)), (-1, (b"L44.0",)), (1, (b"L44.0",))]
        others = [line_of(7, price, b"A1", b"K1", *DOOR[:4], *last) for price, last in ends]
        self.assertEqual(
            self.answers(*others, door_line(7, 1, b"new"), door_line(7, 1, b"K1")),
            [*(refused(b"K1", number) for number in (1, 3, 4, 16, 17)), refused(b"new", 18),
             charged(b"K1", 0)])
        self.assertEqual(self.file.read_bytes(), full.to_bytes())

    def test_marks_are_entered(self):
        marked = line_of(7, 1, b"A1", b"K", *DOOR[:4], b"L44.0")
        self.assertEqual(self.answers(marked, door_line(7, 1, b"K"), marked), [
            line_of(b"A1", b"K", *DOOR_SHEET[:5], b"L", 1), refused(b"K", 17),
            line_of(b"A1", b"K", *DOOR_SHEET[:5], b"L", 0)])


class Files(WithFile):
    def assert_damaged(self, data):
        """19 to every line and every command, and the file is left alone."""
        self.file.write_bytes(data)
        ended = self.ran(data=door_line(7, 500, b"K1") + line_of(b"no request"))
        self.assertEqual(ended[:2], (1, [refused(b"K1", 19), line_of(b"?", b"?", 19)]))
        self.assertEqual(ended.complaints.count(b"\n"), 1)
        for words in (("--owed", "7"), ("--close", "7", "1"), ("--closings", "7"), ("--open",)):
            self.assert_complains(*words)
        self.assertEqual(self.file.read_bytes(), data)
        self.assertEqual(len(list(self.file.parent.iterdir())), 2)

    def used_file(self):
        self.answers(door_line(7, 500, b"K1"), door_line(8, 200, b"K1"))
        self.ran("--close", "8", "1")
        return self.file.read_bytes()

    def test_a_byte_is_another(self):
        data = self.used_file()
        head, body = len(desk.HEAD), len(data) - desk.CHECKSUM_SIZE
        places = {0, head - 1, head, head + desk.Register.SIZE - 1, head + desk.Register.SIZE,
                  body - 1, body, len(data) - 1, *random.Random(1).sample(range(len(data)), 12)}
        for place in places:
            self.assert_damaged(data[:place] + bytes([data[place] ^ 1]) + data[place + 1:])

    def test_another_length(self):
        data = self.used_file()
        closing = desk.CLOSING.size
        for length in (0, 1, desk.CHECKSUM_SIZE, 40000, len(data) - closing, len(data) - 1):
            self.assert_damaged(data[:length])
        for more in (1, closing):
            self.assert_damaged(data + bytes(more))

    def test_right_checksum(self):
        """What no desk could have written is refused with a right checksum, too."""
        body = self.used_file()[:-desk.CHECKSUM_SIZE]
        count = len(desk.HEAD) + desk.Register.SIZE - 8
        closing = body[-desk.CLOSING.size:]
        for other in (b"", body[:100], b"I" + body[1:], body + closing, body + b"\0",
                      body[:count] + b"\xff" + body[count + 1:]):
            self.assert_damaged(other + sha256(other).digest())

    def test_no_file(self):
        self.file.unlink()
        ended = self.ran(data=door_line(7, 500, b"K1"))
        self.assertEqual(ended[:2], (1, [refused(b"K1", 19)]))
        for words in ((), ("--owed", "7")):
            self.assert_complains(*words)
        self.assertFalse(self.file.exists())

    def test_restored_file(self):
        """A desk need not be started again."""
        data = self.used_file()
        self.file.unlink()
        running = Running(self.file)
        for there, answer in ((False, refused(b"K1", 19)), (True, charged(b"K1", 0))):
            if there:
                self.file.write_bytes(data)
            running.send(door_line(7, 500, b"K1"))
            self.assertEqual(running.answer(), answer)
        self.assertEqual(running.end().status, 1)

    def test_nothing_new_is_not_written(self):
        self.used_file()
        inode = self.file.stat().st_ino
        self.answers(door_line(7, 500, b"K1"), door_line(7, -1, b"K2"), b"\n")
        self.assertEqual(self.file.stat().st_ino, inode)

    def test_half_written(self):
        """What a crash left of a new file does not matter."""
        Path(f"{self.file}.new").write_bytes(self.used_file()[:30000])
        self.assertEqual(self.answers(door_line(7, 500, b"K1"), door_line(7, 5, b"K2")),
                         [charged(b"K1", 0), charged(b"K2", 5)])

    def test_no_room(self):
        """A charge that cannot be kept is not answered."""
        data = self.file.read_bytes()
        ended = self.ran(data=b"\n" + door_line(7, 500, b"K1") + b"\n",
                         first=lambda: resource.setrlimit(resource.RLIMIT_FSIZE, (4096, 4096)))
        self.assertEqual(ended[:2], (1, [NO_REQUEST]))
        self.assertIn(b"too large", ended.complaints)
        self.assertEqual(self.file.read_bytes(), data)


class Closings(WithFile):
    def test_closing(self):
        self.answers(door_line(7, 500, b"K1"), door_line(8, 200, b"K1"), door_line(7, 30, b"K2"))
        self.assert_told(("--close", "7", "202610"), (7, 202610, 530))
        self.assert_told(("--owed", "7"), (7, 0))
        self.assertEqual(self.answers(door_line(8, 200, b"K1"), door_line(7, 4, b"K1")),
                         [charged(b"K1", 0), charged(b"K1", 4)])
        self.assert_told(("--close", "7", "202610"), (7, 202610, 530))
        self.assert_told(("--owed", "7"), (7, 4))
        self.assert_told(("--close", "7", "202611"), (7, 202611, 4))
        self.assert_told(("--closings", "7"), (7, 202610, 530), (7, 202611, 4))
        self.assert_told(("--owed", "8"), (8, 200))

    def test_without_entries(self):
        self.assert_told(("--closings", "7"))
        self.assert_told(("--close", "7", "1"), (7, 1, 0))
        self.answers(door_line(7, 500, b"K1"))
        self.assert_told(("--close", "7", "1"), (7, 1, 0))
        self.assert_told(("--owed", "7"), (7, 500))

    def test_free_number(self):
        self.answers(door_line(7, 500, b"K1"))
        self.assert_told(("--close", "7", "2"), (7, 2, 500))
        self.answers(door_line(7, 30, b"K1"))
        self.assert_told(("--close", "7"), (7, 1, 30))
        self.assert_told(("--close", "7"), (7, 3, 0))
        self.assert_told(("--close", "8"), (8, 1, 0))
        self.assert_told(("--closings", "7"), (7, 2, 500), (7, 1, 30), (7, 3, 0))
        self.assertEqual(self.ran("--close", "7", "4", "5").status, 2)

    def test_no_number(self):
        for word in ("-1", "x", "", "1.0", str(2 ** 64)):
            for words in (("--owed", word), ("--close", "7", word), ("--closings", word)):
                self.assertEqual(self.ran(*words).status, 2)


class Processes(WithFile):
    def test_two_desks(self):
        """They take turns; each key is charged once, by one of them."""
        lines = [door_line(7, 1, b"K%d" % number) for number in range(40)]
        both = [Running(self.file), Running(self.file)]
        for running, sent in zip(both, (lines, lines[::-1])):
            running.send(b"".join(sent))
        one, other = (running.end().answers for running in both)
        for answers in zip(one, reversed(other)):
            self.assertEqual(sorted(int(answer.split(b"\t")[-1]) for answer in answers), [0, 1])
        self.assert_told(("--owed", "7"), (7, 40))

    def test_lock(self):
        """While another has the file a desk waits; told to stop, it gives its answer first."""
        running = Running(self.file)
        running.send(b"\n")
        running.answer()
        with desk.locked(self.file):
            running.send(door_line(7, 500, b"K1"))
            while not has_open(running.pid, f"{self.file}.lock"):
                pass
            self.assertEqual(select.select([running.output], [], [], 0.2)[0], [])
            running.stop(signal.SIGTERM)
        self.assertEqual(running.answer(), charged(b"K1", 500))
        self.assertEqual(running.end(), (128 + signal.SIGTERM, [], b""))

    def test_stop(self):
        for number in (signal.SIGTERM, signal.SIGINT):
            running = Running(self.file)
            running.send(b"\n")
            running.answer()
            running.stop(number)
            self.assertEqual(running.end(), (128 + number, [], b""))

    def test_closed_pipe(self):
        running = Running(self.file)
        running.answers.close()
        running.send(door_line(7, 500, b"K1") + door_line(7, 500, b"K2"))
        self.assertEqual(running.end(), (1, [], b""))
        self.assertEqual(self.answers(door_line(7, 500, b"K1"), door_line(7, 500, b"K2")),
                         [charged(b"K1", 0), charged(b"K2", 500)])

    def test_program(self):
        """The program itself, by its name."""
        command = [sys.executable, "-B", desk.__file__, "--file", self.file]
        served = subprocess.run(command, input=door_line(7, 500, b"K1"), capture_output=True)
        self.assertEqual((served.returncode, served.stdout), (0, charged(b"K1", 500)))
        owed = subprocess.run([*command, "--owed", "7"], capture_output=True)
        self.assertEqual((owed.returncode, owed.stdout), (0, line_of(7, 500)))


if __name__ == "__main__":
    unittest.main()
