"""Where the library is looked for, when, and what is said where there is none or another."""

import _ctypes
import shutil
import tempfile
import unittest
from pathlib import Path
from unittest import mock

from common import PACKAGE, imbrolt, library_file, python
from imbrolt import _library

VERSION = "import imbrolt; print(imbrolt.version())"
TRIED = """
import imbrolt
assert imbrolt.Kind(1) is imbrolt.Kind.A1 and imbrolt.Refusal(3).sentence
assert imbrolt.Tenths(240) == 240
assert imbrolt.level(24.0).mark == 0 and imbrolt.limit(24.0).mark == 1
for call in (imbrolt.version, imbrolt.Register, lambda: imbrolt.rate(imbrolt.Kind.A1, [])):
    try:
        call()
    except imbrolt.LibraryNotFound as error:
        assert isinstance(error, OSError)
        print(error)
"""
NOT_OF_THE_SYSTEM = "from imbrolt import _library; _library.of_the_system = lambda: None\n"
LATER = """
import imbrolt, os
try:
    imbrolt.version()
except imbrolt.LibraryNotFound:
    del os.environ["IMBROLT_LIBRARY"]
print(imbrolt.version())
"""


class Places(unittest.TestCase):
    def setUp(self):
        folder = tempfile.TemporaryDirectory()
        self.addCleanup(folder.cleanup)
        self.folder = Path(folder.name).resolve()
        self.version = f"{imbrolt.version()}\n"

    def package_in(self, *names):
        """A copy of the package, without a library; the folder to import it from."""
        place = self.folder.joinpath(*names)
        shutil.copytree(PACKAGE, place / "imbrolt",
                        ignore=shutil.ignore_patterns("__pycache__", _library.NAME))
        return place

    def library_in(self, *names):
        """A copy of the library below the folder."""
        place = self.folder.joinpath(*names)
        place.mkdir(parents=True, exist_ok=True)
        return shutil.copy(library_file(), place / _library.NAME)

    def test_nothing_is_loaded_by_an_import(self):
        """All but the calls is there without a library; they say where it was looked for."""
        said = python("-c", TRIED, IMBROLT_LIBRARY="/nonexistent").splitlines()
        self.assertEqual(len(said), 3)
        for text in ("IMBROLT_LIBRARY names /nonexistent", "`make` in the repository", "wheel"):
            for line in said:
                self.assertIn(text, line)

    def test_nowhere(self):
        place = self.package_in("site")
        said = python("-c", NOT_OF_THE_SYSTEM + TRIED, path=place, IMBROLT_LIBRARY=None)
        file = place / "imbrolt" / _library.NAME
        self.assertIn(f"looked for {file} and among the system's libraries. Run `make`", said)

    def test_in_the_package(self):
        place = self.package_in("site")
        self.library_in("site", "imbrolt")
        self.assertEqual(python("-c", VERSION, path=place, IMBROLT_LIBRARY=None), self.version)

    def test_in_the_repository(self):
        place = self.package_in("bindings", "python")
        self.library_in("target", "native")
        code = NOT_OF_THE_SYSTEM + VERSION
        self.assertEqual(python("-c", code, path=place, IMBROLT_LIBRARY=None), self.version)

    def test_of_the_system(self):
        place = self.package_in("site")
        library = Path(self.library_in("lib"))
        for empty in (None, ""):
            said = python("-c", VERSION, path=place, IMBROLT_LIBRARY=empty,
                          LD_LIBRARY_PATH=str(library.parent))
            self.assertEqual(said, self.version)

    def test_of_the_system_by_this_version(self):
        """Beside one of another version, which is no library at all here."""
        place = self.package_in("site")
        library = Path(self.library_in("lib"))
        series = imbrolt.__version__.rpartition(".")[0]
        library.rename(f"{library}.{series}")
        library.write_text("")
        said = python("-c", VERSION, path=place, IMBROLT_LIBRARY=None, LD_LIBRARY_PATH=str(library.parent))
        self.assertEqual(said, self.version)

    def test_named(self):
        """By a name that is not whole, too; and then from nowhere else."""
        place = self.package_in("site")
        library = Path(self.library_in("lib"))
        said = python("-c", VERSION, cwd=library.parent, path=place, IMBROLT_LIBRARY=library.name)
        self.assertEqual(said, self.version)
        self.library_in("site", "imbrolt")
        said = python("-c", TRIED, path=place, IMBROLT_LIBRARY="/nonexistent")
        self.assertIn("IMBROLT_LIBRARY names /nonexistent", said)

    def test_found_later(self):
        """A failure is not remembered."""
        place = self.package_in("site")
        self.library_in("site", "imbrolt")
        self.assertEqual(python("-c", LATER, path=place, IMBROLT_LIBRARY="/nonexistent"),
                         self.version)


class Others(unittest.TestCase):
    def load(self, file):
        """Loads a library anew."""
        with mock.patch.dict("os.environ", IMBROLT_LIBRARY=str(file)):
            return _library.functions.__wrapped__()

    def test_another_version(self):
        """In the first part or the second; a library with another third part will do."""
        number = imbrolt.version()
        first, second = number // 10000, number // 100 % 100
        for version in (f"{first + 1}.{second}.0", f"{first}.{second + 1}.0"):
            with mock.patch.object(_library, "__version__", version):
                said = f"version {first}.{second}.*, and this is imbrolt {version}. Run `make`"
                with self.assertRaisesRegex(imbrolt.LibraryMismatch, said):
                    self.load(library_file())
        with mock.patch.object(_library, "__version__", f"{first}.{second}.99"):
            self.assertEqual(self.load(library_file())["version"](), number)

    def test_another_library(self):
        with self.assertRaisesRegex(imbrolt.LibraryMismatch, "has no imbrolt_version"):
            self.load(_ctypes.__file__)

    def test_no_library(self):
        """A file that is none is told by its name, with what to do."""
        with self.assertRaisesRegex(imbrolt.LibraryMismatch, "test_library.py cannot be loaded: .*Run `make`"):
            self.load(__file__)

    def test_errors_of_the_system(self):
        """They are what a program that opens files handles already."""
        for error in (imbrolt.LibraryNotFound, imbrolt.LibraryMismatch):
            self.assertTrue(issubclass(error, OSError))

    def test_loaded_once(self):
        self.assertIs(_library.functions(), _library.functions())


if __name__ == "__main__":
    unittest.main()
