"""Status 0 only where all was read and every answer written: failures, closed pipes, slow and small ones."""

import fcntl
import os
import pty
import re
import resource
import select
import shutil
import signal
import socket
import subprocess
import tempfile
import time
import unittest
from pathlib import Path

from command import ANSWER, ANSWERS, LINE, RATE, REQUESTS, SHORT_ANSWER, SHORT_LINE, STORED, run


class Reading(unittest.TestCase):
    def test_files_that_cannot_be_read_are_told_before_any_answer(self):
        with tempfile.TemporaryDirectory() as folder:
            missing = Path(folder) / "missing"
            status, answers, messages = run(STORED / "stdin", missing, folder, given=LINE)
        self.assertEqual((status, answers), (1, b""))
        self.assertEqual(messages, f"rate: {missing}: No such file or directory\n"
                                   f"rate: {folder}: Is a directory\n")

    def test_a_file_that_fails_while_it_is_read(self):
        """The first bytes of a process are no memory: to open them succeeds, to read them fails."""
        self.assertEqual(run("/proc/self/mem"), (1, b"", "rate: /proc/self/mem: Input/output error\n"))
        status, answers, messages = run("-", "/proc/self/mem", "-", given=LINE)
        self.assertEqual((status, answers, messages), (1, ANSWER, "rate: /proc/self/mem: Input/output error\n"))

    @unittest.skipIf(os.getuid(), "only root can become another user")
    def test_a_file_that_may_not_be_read(self):
        """It is told before any answer."""
        with tempfile.TemporaryDirectory() as folder:
            os.chmod(folder, 0o755)
            path = Path(folder) / "secret"
            path.write_bytes(LINE)
            path.chmod(0o600)
            program = shutil.copy(RATE, folder)
            try:
                status, answers, messages = run("-", path, program=program, given=LINE,
                                                preexec_fn=lambda: os.setuid(65534))
            except PermissionError:
                self.skipTest("the temporary folder is not open to others")
        self.assertEqual((status, answers, messages), (1, b"", f"rate: {path}: Permission denied\n"))

    def test_a_socket(self):
        with tempfile.TemporaryDirectory() as folder, socket.socket(socket.AF_UNIX) as end:
            path = f"{folder}/socket"
            end.bind(path)
            self.assertEqual(run("-", path, given=LINE), (1, b"", f"rate: {path}: No such device or address\n"))

    def test_names_are_told_without_moving_the_cursor(self):
        self.assertEqual(run(""), (1, b"", "rate: '': No such file or directory\n"))
        self.assertEqual(run("/no\n\x1b[2Jsuch"), (1, b"", "rate: /no??[2Jsuch: No such file or directory\n"))

    def test_more_files_than_may_be_open(self):
        def limit_open_files():
            resource.setrlimit(resource.RLIMIT_NOFILE, (12, 12))

        with tempfile.TemporaryDirectory() as folder:
            path = Path(folder) / "requests"
            path.write_bytes(LINE)
            self.assertEqual(run(*300 * [path], preexec_fn=limit_open_files), (0, 300 * ANSWER, ""))

    def test_standard_input_that_cannot_be_read(self):
        folder = os.open("/", os.O_RDONLY)
        self.addCleanup(os.close, folder)
        self.assertEqual(run(stdin=folder), (1, b"", "rate: standard input: Is a directory\n"))
        done = subprocess.run(["sh", "-c", f"'{RATE}' <&-"], capture_output=True, check=False)
        self.assertEqual((done.returncode, done.stdout, done.stderr),
                         (1, b"", b"rate: standard input: Bad file descriptor\n"))

    def test_the_output_is_no_input(self):
        with tempfile.TemporaryDirectory() as folder:
            path = Path(folder) / "requests"
            path.write_bytes(LINE)
            with open(path, "ab") as output:
                status, _, messages = run(path, stdout=output)
            self.assertEqual((status, messages), (1, f"rate: {path}: it is the output, too\n"))
            with open(path, "ab") as output, open(path, "rb") as given:
                status, _, messages = run(stdin=given, stdout=output)
            self.assertEqual((status, messages), (1, "rate: standard input: it is the output, too\n"))
            self.assertEqual(path.read_bytes(), LINE)


class Writing(unittest.TestCase):
    def test_a_full_device(self):
        for words in ((), (STORED / "stdin",)):
            with open("/dev/full", "wb") as full:
                status, _, messages = run(*words, given=REQUESTS, stdout=full)
            self.assertEqual((status, messages),
                             (1, "rate: standard output: No space left on device\n"))

    def test_a_device_that_fills_up(self):
        """What was written until then is the start of the answers."""
        def limit_files():
            signal.signal(signal.SIGXFSZ, signal.SIG_IGN)
            resource.setrlimit(resource.RLIMIT_FSIZE, (1000, 1000))

        with tempfile.TemporaryFile() as output:
            status, _, messages = run(STORED / "stdin", stdout=output, preexec_fn=limit_files)
            output.seek(0)
            self.assertEqual(output.read(), ANSWERS[:1000])
        self.assertEqual((status, messages), (1, "rate: standard output: File too large\n"))

    def test_a_closed_output(self):
        for given in (LINE, b""):
            done = subprocess.run(["sh", "-c", f"'{RATE}' >&-"], input=given, capture_output=True,
                                  check=False)
            self.assertEqual((done.returncode, done.stderr),
                             (1, b"rate: standard output: Bad file descriptor\n"))


class ClosedPipe(unittest.TestCase):
    def ended(self, **options):
        """A run whose reader goes after the first byte."""
        process = subprocess.Popen([RATE, str(STORED / "stdin"), "/dev/zero"], stdout=subprocess.PIPE,
                                   stderr=subprocess.PIPE, **options)
        process.stdout.read(1)
        process.stdout.close()
        messages = process.stderr.read()
        process.stderr.close()
        return process.wait(timeout=60), messages

    def test_it_ends_by_the_signal_without_a_message(self):
        self.assertEqual(self.ended(), (-signal.SIGPIPE, b""))

    def test_also_where_the_signal_is_ignored_or_blocked(self):
        self.assertEqual(self.ended(restore_signals=False), (-signal.SIGPIPE, b""))
        self.assertEqual(self.ended(preexec_fn=lambda: signal.pthread_sigmask(
            signal.SIG_BLOCK, {signal.SIGPIPE})), (-signal.SIGPIPE, b""))

    def test_a_shell_sees_141(self):
        script = f"{{ '{RATE}' '{STORED}/stdin' '{STORED}/stdin'; echo $? >&2; }} | head -c 1 >/dev/null"
        for _ in range(20):  # the reader has to be gone before all is written
            done = subprocess.run(["sh", "-c", script], capture_output=True, check=False)
            if done.stderr != b"0\n":
                break
        self.assertEqual(done.stderr, b"141\n")


class Pipes(unittest.TestCase):
    def test_a_line_is_answered_before_the_next_is_waited_for(self):
        with subprocess.Popen([RATE], stdin=subprocess.PIPE, stdout=subprocess.PIPE) as process:
            for line, answer in ((LINE, ANSWER), (SHORT_LINE, SHORT_ANSWER)) * 3:
                process.stdin.write(line[:9])
                process.stdin.flush()
                self.assertEqual(select.select([process.stdout], [], [], 0.02)[0], [])
                process.stdin.write(line[9:])
                process.stdin.flush()
                self.assertEqual(os.read(process.stdout.fileno(), 4096), answer)
            process.stdin.close()
            self.assertEqual((process.stdout.read(), process.wait()), (b"", 0))

    def test_pipes_that_do_not_wait(self):
        """Both ends are set so that a read or a write does what it can, or fails, where it would have to wait.

        The output's pipe is short, and its reader slow: most writes write a part of what they are given.
        """
        ours_in, its_in = os.pipe()[::-1]
        its_out_read, its_out = os.pipe()
        for end in (its_in, its_out):
            fcntl.fcntl(end, fcntl.F_SETFL, fcntl.fcntl(end, fcntl.F_GETFL) | os.O_NONBLOCK)
        fcntl.fcntl(its_out, fcntl.F_SETPIPE_SZ, 4096)
        process = subprocess.Popen([RATE], stdin=its_in, stdout=its_out, stderr=subprocess.PIPE)
        os.close(its_in)
        os.close(its_out)
        if os.fork() == 0:
            os.close(its_out_read)
            for start in range(0, len(REQUESTS), 50_000):
                time.sleep(0.01)
                with open(os.dup(ours_in), "wb") as given:
                    given.write(REQUESTS[start:start + 50_000])
            os._exit(0)
        os.close(ours_in)
        time.sleep(0.3)
        answers, part = b"", b"."
        while part:
            part = os.read(its_out_read, 1777)
            answers += part
        os.close(its_out_read)
        self.assertEqual((process.stderr.read(), process.wait()), (b"", 0))
        process.stderr.close()
        os.wait()
        self.assertEqual(answers, ANSWERS)


class Progress(unittest.TestCase):
    def on_terminal(self, *words, answers_too=False, **options):
        """The status, and what a terminal on standard error shows."""
        ours, its = pty.openpty()
        with tempfile.TemporaryFile() as output:
            process = subprocess.Popen([RATE, *map(str, words)], stdout=its if answers_too else output, stderr=its,
                                       **options)
            os.close(its)
            shown = b""
            while True:
                try:
                    part = os.read(ours, 4096)
                except OSError:  # how a terminal whose other end is closed ends
                    part = b""
                if not part:
                    break
                shown += part
            os.close(ours)
            return process.wait(), shown.decode()

    def test_bytes_answered_of_bytes_given(self):
        with tempfile.TemporaryDirectory() as folder:
            files = [Path(folder) / "many", Path(folder) / "one"]
            files[0].write_bytes(100_000 * LINE)
            files[1].write_bytes(LINE)
            status, shown = self.on_terminal("--progress", *files)
        given = 100_001 * len(LINE)
        self.assertEqual(status, 0)
        first, *lines, last, end = shown.split("\r")
        self.assertEqual(first, "")
        for line in lines:
            self.assertRegex(line, rf"\Arate: \d+ of {given} bytes answered\Z")
        self.assertEqual((last, end), (f"rate: {given} of {given} bytes answered", "\n"))

    def test_what_waits_is_not_answered(self):
        """A piece of a line that waits for the rest of it is read, but not answered."""
        ours_in, its_in = os.pipe()[::-1]
        if os.fork() == 0:
            for part in (LINE + SHORT_LINE[:5], SHORT_LINE[5:9], SHORT_LINE[9:]):
                os.write(ours_in, part)
                time.sleep(0.3)
            os._exit(0)
        os.close(ours_in)
        status, shown = self.on_terminal("--progress", stdin=its_in)
        os.close(its_in)
        os.wait()
        self.assertEqual(status, 0)
        numbers = [int(number) for number in re.findall(r"\rrate: (\d+) bytes answered", shown)]
        self.assertLessEqual(set(numbers), {0, len(LINE), len(LINE + SHORT_LINE)})
        self.assertEqual(numbers[-1], len(LINE + SHORT_LINE))

    def test_a_warning_stands_on_a_line_of_its_own(self):
        with tempfile.TemporaryDirectory() as folder:
            head, tail = Path(folder) / "head", Path(folder) / "tail"
            head.write_bytes(LINE[:7])
            tail.write_bytes(LINE[7:])
            status, shown = self.on_terminal("--progress", head, tail)
        self.assertEqual(status, 0)
        self.assertRegex(shown, r"answered\r\nrate: \S+head ends .*tail\r\n(\rrate: 31 of 31 bytes answered)+\r\n\Z")

    def test_a_failure_stands_on_a_line_of_its_own(self):
        status, shown = self.on_terminal("--progress", STORED / "stdin", "/proc/self/mem")
        self.assertEqual(status, 1)
        self.assertTrue(shown.endswith("\r\nrate: /proc/self/mem: Input/output error\r\n"), shown)

    def test_what_is_given(self):
        """Standard input counts once, from where it stands; a file that does not tell its size is not counted."""
        with tempfile.NamedTemporaryFile() as file:
            file.write(3 * LINE)
            file.flush()
            for words in (("--progress",), ("--progress", "-", "-"), ("-", "--progress")):
                with open(file.name, "rb", buffering=0) as given:
                    given.seek(len(LINE))
                    status, shown = self.on_terminal(*words, stdin=given)
                self.assertEqual(status, 0)
                self.assertEqual(shown.split("\r")[-2:], [f"rate: {2 * len(LINE)} of {2 * len(LINE)} bytes answered", "\n"])
        status, shown = self.on_terminal("--progress", "/proc/version")
        self.assertRegex(shown, r"\rrate: [1-9]\d* bytes answered\r\n\Z")

    def test_nothing_is_shown_among_the_answers(self):
        with tempfile.NamedTemporaryFile() as file:
            file.write(LINE)
            file.flush()
            self.assertEqual(self.on_terminal("--progress", file.name, answers_too=True),
                             (0, self.on_terminal(file.name, answers_too=True)[1]))

    def test_nothing_is_shown_unasked_or_where_there_is_no_terminal(self):
        self.assertEqual(self.on_terminal(STORED / "stdin"), (0, ""))
        self.assertEqual(run("--progress", STORED / "stdin"), (0, ANSWERS, ""))


if __name__ == "__main__":
    unittest.main()
