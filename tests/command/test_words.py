"""The words of the command: files, options, and what is none."""

import os
import platform
import tempfile
import unittest
from pathlib import Path

from command import (
    ANSWER, ANSWERS, LINE, NO_REQUEST, RATE, REQUESTS, ROOT, SHORT_ANSWER, SHORT_LINE, STORED, run)

VERSION = (ROOT / "VERSION").read_text().strip()


class Files(unittest.TestCase):
    def setUp(self):
        folder = tempfile.TemporaryDirectory()
        self.addCleanup(folder.cleanup)
        self.folder = Path(folder.name)

    def file(self, name, data):
        path = self.folder / name
        path.write_bytes(data)
        return path

    def test_standard_input(self):
        self.assertEqual(run(given=REQUESTS), (0, ANSWERS, ""))
        self.assertEqual(run("-", given=REQUESTS), (0, ANSWERS, ""))
        with open(STORED / "stdin", "rb") as requests:
            self.assertEqual(run(stdin=requests), (0, ANSWERS, ""))

    def test_nothing_gives_nothing(self):
        self.assertEqual(run(), (0, b"", ""))
        self.assertEqual(run(self.file("empty", b"")), (0, b"", ""))

    def test_a_file(self):
        self.assertEqual(run(STORED / "stdin"), (0, ANSWERS, ""))

    def test_several_files_are_one_run(self):
        """However the requests are cut into files, at line feeds or within lines."""
        for places in ((5000,), (1, 2, 3), (300_000, 300_001), (700, 700, 90_000)):
            cuts = [0, *places, len(REQUESTS)]
            files = [self.file(f"part-{number}", REQUESTS[start:end])
                     for number, (start, end) in enumerate(zip(cuts, cuts[1:]))]
            status, answers, _ = run(*files)
            self.assertEqual((status, answers), (0, ANSWERS), places)

    def test_standard_input_among_files(self):
        before, after = self.file("before", LINE), self.file("after", SHORT_LINE)
        self.assertEqual(run(before, "-", after, given=SHORT_LINE),
                         (0, ANSWER + SHORT_ANSWER + SHORT_ANSWER, ""))
        self.assertEqual(run("-", "-", given=LINE), (0, ANSWER, ""))

    def test_a_line_that_goes_on_in_the_next_file_is_told(self):
        head, tail = self.file("head", LINE[:7]), self.file("tail", LINE[7:])
        warning = f"rate: {head} ends without a line feed: its last line goes on in {tail}\n"
        self.assertEqual(run(head, tail), (0, ANSWER, warning))
        self.assertEqual(run(tail, head), (0, NO_REQUEST + NO_REQUEST, ""))

    def test_a_file_named_like_an_option(self):
        path = self.file("--progress", LINE)
        self.assertEqual(run("--", path.name, cwd=self.folder), (0, ANSWER, ""))
        self.assertEqual(run(f"./{path.name}", cwd=self.folder), (0, ANSWER, ""))
        self.assertEqual(run("--", "-", given=LINE), (0, ANSWER, ""))
        self.assertEqual(run("--", given=LINE), (0, ANSWER, ""))

    def test_a_named_pipe(self):
        path = self.folder / "pipe"
        os.mkfifo(path)
        if os.fork() == 0:
            path.write_bytes(REQUESTS)
            os._exit(0)
        self.assertEqual(run(path), (0, ANSWERS, ""))
        os.wait()


class Options(unittest.TestCase):
    def test_help(self):
        status, text, messages = run("--help")
        self.assertEqual((status, messages), (0, ""))
        self.assertTrue(text.startswith(b"usage: rate "))
        for word in (b"FILE", b"--progress", b"--help", b"--version", b"Status: 0"):
            self.assertIn(word, text)

    def test_version(self):
        self.assertEqual(run("--version"), (0, f"rate (Imbrolt) {VERSION}\n".encode(), ""))

    def test_a_text_that_cannot_be_written(self):
        for word in ("--help", "--version"):
            with open("/dev/full", "wb") as full:
                status, _, messages = run(word, stdout=full)
            self.assertEqual((status, messages),
                             (1, "rate: standard output: No space left on device\n"), word)

    def test_unknown_options(self):
        for words in (["--hepl"], ["-x"], ["--progress=1"], ["--helpful"], ["-h"],
                      [STORED / "stdin", "--unknown"], ["---"]):
            status, answers, messages = run(*words, given=LINE)
            self.assertEqual((status, answers), (2, b""), words)
            self.assertRegex(messages, rf"\Arate: unknown option {words[-1]}\nusage: rate .*\n\Z")

    def test_options_stand_anywhere(self):
        self.assertEqual(run(STORED / "stdin", "--progress"), (0, ANSWERS, ""))
        self.assertEqual(run(STORED / "stdin", "--version")[1],
                         f"rate (Imbrolt) {VERSION}\n".encode())


class Machine(unittest.TestCase):
    def test_the_program_is_of_this_machine(self):
        """By the machine in the head of the file: no emulator stands between."""
        machines = {"x86_64": 62, "aarch64": 183}
        head = Path(RATE).read_bytes()[:20]
        self.assertEqual(head[:4], b"\x7fELF")
        self.assertEqual(int.from_bytes(head[18:20], "little"), machines[platform.machine()])


if __name__ == "__main__":
    unittest.main()
