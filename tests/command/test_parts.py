"""A run may be cut at any line feed: the answers of the parts, joined in their order, are those of the whole.

The commands are those that README.md shows, with `rate` on the PATH.
"""

import os
import re
import shutil
import subprocess
import tempfile
import unittest
from pathlib import Path

from command import ANSWERS, RATE, REQUESTS, ROOT

LINE_FEEDS = REQUESTS.count(b"\n")


def shown(word):
    """The commands of README.md that have a word."""
    blocks = re.findall(r"^```sh\n(.*?)^```$", (ROOT / "README.md").read_text(), flags=re.M | re.S)
    (block,) = (block for block in blocks if word in block)
    return block


class Parts(unittest.TestCase):
    def setUp(self):
        folder = tempfile.TemporaryDirectory()
        self.addCleanup(folder.cleanup)
        self.folder = Path(folder.name)
        (self.folder / "requests.tsv").write_bytes(REQUESTS)
        (self.folder / "rate").symlink_to(RATE)
        self.environment = {**os.environ, "PATH": f"{folder.name}:{os.environ['PATH']}", "HOME": folder.name}

    def shell(self, script):
        """The status of a script, and the answers that it leaves."""
        done = subprocess.run(["sh", "-c", script], cwd=self.folder, env=self.environment,
                              stdout=subprocess.PIPE, stderr=subprocess.PIPE, timeout=300, check=False)
        answers = self.folder / "answers.tsv"
        return done.returncode, answers.read_bytes() if answers.exists() else None

    def has_parallel(self):
        """Whether GNU parallel is there; others have the same name."""
        return shutil.which("parallel") and b"GNU parallel" in subprocess.run(
            ["parallel", "--version"], capture_output=True, env=self.environment, check=False).stdout

    def test_split(self):
        """`split` cuts at line feeds; the parts are answered at once, and their names are in their order."""
        self.assertEqual(self.shell(shown("split -n")), (0, ANSWERS))
        self.assertEqual(self.shell(f"nproc() {{ echo 13; }}\n{shown('split -n')}"), (0, ANSWERS))

    def test_any_number_of_parts(self):
        for parts in (2, 3, 50):
            script = (f"split -n l/{parts} -a 4 --filter='rate > $FILE.answers' requests.tsv part. &&"
                      " cat part.*.answers > answers.tsv && rm part.*")
            self.assertEqual(self.shell(script), (0, ANSWERS), parts)

    def test_parallel(self):
        """GNU parallel keeps the order, whatever the size of a part."""
        if not self.has_parallel():
            self.skipTest("GNU parallel is not installed")
        script = shown("parallel --pipepart")
        self.assertEqual(self.shell(script), (0, ANSWERS))
        for size in ("10k", "100k"):
            self.assertIn("--block -1 ", script)
            self.assertEqual(self.shell(script.replace("--block -1 ", f"--block {size} ")), (0, ANSWERS), size)

    def test_a_part_that_fails_is_seen(self):
        """A part that cannot write its answers ends the whole with another status than 0."""
        failing = self.folder / "failing"
        failing.write_text(f"#!/bin/sh\nexec '{RATE}' \"$@\" > /dev/full\n")
        failing.chmod(0o755)
        (self.folder / "rate").unlink()
        (self.folder / "rate").symlink_to(failing)
        scripts = [shown("split -n")]
        if self.has_parallel():
            scripts.append(shown("parallel --pipepart"))
        for script in scripts:
            self.assertNotEqual(self.shell(script)[0], 0, script)

    def test_a_mapper(self):
        """What a mapper is given: lines that another program has read and ends each by a line feed."""
        whole = REQUESTS[:REQUESTS.rindex(b"\n") + 1]
        lines = whole.split(b"\n")[:-1]
        self.assertEqual(len(lines), LINE_FEEDS)
        answers = b""
        for start in range(0, len(lines), 1500):
            given = b"".join(line + b"\n" for line in lines[start:start + 1500])
            answers += subprocess.run([RATE], input=given, capture_output=True, check=True).stdout
        self.assertEqual(answers.count(b"\n"), LINE_FEEDS)
        self.assertTrue(ANSWERS.startswith(answers))


if __name__ == "__main__":
    unittest.main()
