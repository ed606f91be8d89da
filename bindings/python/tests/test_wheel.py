"""A wheel is built, leaves nothing behind in the source tree, and works where it is installed."""

import os
import shutil
import subprocess
import sys
import sysconfig
import tempfile
import unittest
import zipfile
from pathlib import Path

from common import DOOR, PYTHON, environment, imbrolt, library_file, python

CAN_BUILD = """
import setuptools
try:
    import setuptools.command.bdist_wheel
except ImportError:
    import wheel.bdist_wheel
import pip
"""
NO_BUILDER = ("no Python here can build a wheel. Install pip, setuptools and wheel (or pip and"
              " setuptools 70.1 or later) for one of: ")
USED = f"""
import imbrolt
print(imbrolt.__file__, imbrolt.__version__)
print(*imbrolt.rate(imbrolt.Kind.A1, {DOOR}))
"""


def builder():
    """The first Python that can build a wheel."""
    pythons = [sys.executable, "/usr/bin/python3"]
    for name in pythons:
        if os.path.exists(name) and not subprocess.run([name, "-c", CAN_BUILD],
                                                       capture_output=True).returncode:
            return name
    raise AssertionError(NO_BUILDER + ", ".join(pythons))


def files_below(folder):
    return {path for path in folder.rglob("*") if "__pycache__" not in path.parts}


def pip(*words, **variables):
    """A run of pip, without a network."""
    return subprocess.run([builder(), "-m", "pip", "--disable-pip-version-check", *words],
                          env=environment(**variables), capture_output=True, text=True)


def build(source, folder, library):
    return pip("wheel", "--no-build-isolation", "--no-deps", "--no-index", "-w", str(folder),
               str(source), IMBROLT_LIBRARY=library)


class Wheel(unittest.TestCase):
    @classmethod
    def setUpClass(cls):
        folder = tempfile.TemporaryDirectory()
        cls.addClassCleanup(folder.cleanup)
        cls.folder = Path(folder.name).resolve()
        before = files_below(PYTHON)
        cls.built = build(PYTHON, cls.folder / "wheels", str(library_file()))
        cls.left_behind = files_below(PYTHON) - before

    def wheel(self):
        self.assertEqual(self.built.returncode, 0, self.built.stdout + self.built.stderr)
        (wheel,) = (self.folder / "wheels").iterdir()
        return wheel

    def test_name(self):
        platform = sysconfig.get_platform().replace("-", "_").replace(".", "_")
        self.assertEqual(self.wheel().name,
                         f"imbrolt-{imbrolt.__version__}-py3-none-{platform}.whl")

    def test_files(self):
        with zipfile.ZipFile(self.wheel()) as wheel:
            names = {name for name in wheel.namelist() if ".dist-info/" not in name}
            self.assertEqual(wheel.read("imbrolt/libimbrolt.so"), library_file().read_bytes())
        package = {str(path.relative_to(PYTHON)) for path in files_below(PYTHON / "imbrolt")}
        self.assertEqual(names, package | {"imbrolt/libimbrolt.so"})
        self.assertIn("imbrolt/py.typed", names)

    def test_what_it_says_of_itself(self):
        with zipfile.ZipFile(self.wheel()) as wheel:
            head = f"imbrolt-{imbrolt.__version__}.dist-info/"
            about, how = (wheel.read(head + name).decode() for name in ("METADATA", "WHEEL"))
        self.assertIn(f"\nVersion: {imbrolt.__version__}\n", about)
        self.assertIn("\nRequires-Python: >=3.9\n", about)
        self.assertIn("Root-Is-Purelib: false\n", how)
        self.assertEqual(how.count("Tag: "), 1)

    def test_nothing_is_left_behind(self):
        self.wheel()
        self.assertEqual(self.left_behind, set())

    def test_installed(self):
        """From another folder, without the repository, and with no library named."""
        place = self.folder / "installed"
        installed = pip("install", "--no-index", "--no-deps", "--target", str(place),
                        str(self.wheel()))
        self.assertEqual(installed.returncode, 0, installed.stderr)
        elsewhere = self.folder / "elsewhere"
        elsewhere.mkdir()
        file = place / "imbrolt" / "__init__.py"
        self.assertEqual(
            python("-c", USED, cwd=elsewhere, path=place, IMBROLT_LIBRARY=None),
            f"{file} {imbrolt.__version__}\n42 -2 -6 0 False\n")


class WithoutLibrary(unittest.TestCase):
    def test_message(self):
        """Where there is no library, no wheel is built, and it is said what to do."""
        with tempfile.TemporaryDirectory() as name:
            folder = Path(name)
            source = folder / "bindings" / "python"
            shutil.copytree(PYTHON, source)
            for library, missing in (("/nonexistent", "no /nonexistent"),
                                     (None, "target/native/libimbrolt.so")):
                built = build(source, folder / "wheels", library)
                said = built.stdout + built.stderr
                self.assertNotEqual(built.returncode, 0)
                self.assertIn(missing, said)
                self.assertIn("Run `make` in the repository", said)
            self.assertEqual(list((folder / "wheels").glob("*")), [])


if __name__ == "__main__":
    unittest.main()
