"""One version, that of the file VERSION, in every place that has a copy."""

import importlib.util
import re
import shutil
import subprocess
import sys
import tempfile
import unittest
from importlib.machinery import SourceFileLoader
from pathlib import Path

sys.dont_write_bytecode = True
ROOT = Path(__file__).resolve().parents[2]
sys.path.insert(0, str(ROOT / "bindings" / "python"))

import imbrolt  # noqa: E402


def tool():
    """build/version as a module."""
    loader = SourceFileLoader("version_tool", str(ROOT / "build" / "version"))
    module = importlib.util.module_from_spec(importlib.util.spec_from_loader(loader.name, loader))
    loader.exec_module(module)
    return module


class Here(unittest.TestCase):
    def test_one_place(self):
        """Every copy is that of VERSION, and what is built says the same."""
        done = subprocess.run([ROOT / "build" / "version", "--check"], capture_output=True, text=True, check=False)
        self.assertEqual((done.returncode, done.stdout, done.stderr), (0, "", ""))
        text = (ROOT / "VERSION").read_text()
        major, minor, patch = map(int, text.split("."))
        self.assertEqual(imbrolt.version(), 10000 * major + 100 * minor + patch)
        self.assertEqual(imbrolt.__version__, text.strip())

    def test_the_changes_begin_with_it(self):
        versions = re.findall(r"^## (\d+\.\d+\.\d+)", (ROOT / "docs" / "CHANGES.md").read_text(), flags=re.M)
        self.assertEqual(versions[:1], [(ROOT / "VERSION").read_text().strip()])


class Another(unittest.TestCase):
    """In a copy of all the places."""

    def setUp(self):
        folder = tempfile.TemporaryDirectory()
        self.addCleanup(folder.cleanup)
        self.tree = Path(folder.name)
        self.names = sorted({name for name, _, _ in tool().PLACES})
        for name in ("build/version", *self.names):
            (self.tree / name).parent.mkdir(parents=True, exist_ok=True)
            shutil.copy2(ROOT / name, self.tree / name)

    def version(self, text, *words):
        (self.tree / "VERSION").write_text(text)
        return subprocess.run([self.tree / "build" / "version", *words], capture_output=True, text=True, check=False)

    def texts(self):
        return [(self.tree / name).read_text() for name in self.names]

    def test_it_is_written_everywhere(self):
        before = self.texts()
        self.assertEqual(self.version("12.34.5\n", "--check").returncode, 1)
        self.assertEqual(self.texts(), before)
        self.assertEqual(self.version("12.34.5\n").returncode, 0)
        self.assertEqual(self.version("12.34.5\n", "--check").returncode, 0)
        self.assertTrue(all(one != other for one, other in zip(self.texts(), before)))
        header = (self.tree / "include" / "imbrolt.h").read_text()
        self.assertIn("#define IMBROLT_VERSION 123405 ", header)
        self.assertIn('#define IMBROLT_VERSION_TEXT "12.34.5"\n', header)

    def test_what_is_no_version_changes_nothing(self):
        before = self.texts()
        for text in ("", "1.2\n", "1.2.3", "1.2.3\n\n", "1.2.100\n", "01.2.3\n", "1.2.3-rc1\n"):
            done = self.version(text)
            self.assertEqual(done.returncode, 1, text)
            self.assertIn("VERSION is not three numbers", done.stderr)
        self.assertEqual(self.texts(), before)

    def test_a_place_that_is_damaged_changes_nothing(self):
        damaged = self.tree / "bindings" / "python" / "imbrolt" / "_version.py"
        damaged.write_text("")
        before = self.texts()
        done = self.version("12.34.5\n")
        self.assertEqual(done.returncode, 1)
        self.assertIn("_version.py has 0 places for the version, not 1", done.stderr)
        self.assertEqual(self.texts(), before)


if __name__ == "__main__":
    unittest.main()
