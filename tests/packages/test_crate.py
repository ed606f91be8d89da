"""The Rust crate can be packaged offline, what is packaged builds, and where it finds no library it says what to do."""

import os
import shutil
import subprocess
import tarfile
import tempfile
import unittest
from pathlib import Path

ROOT = Path(__file__).resolve().parents[2]
VERSION = (ROOT / "VERSION").read_text().strip()
TARGET = ROOT / "target" / "cargo"
CRATE = ROOT / "bindings" / "rust"


def cargo(*words, folder, target, **variables):
    environment = {name: value for name, value in os.environ.items() if name != "IMBROLT_ARCHIVE_DIR"}
    return subprocess.run(["cargo", *words, "--quiet", "--offline", "--locked"], cwd=folder, capture_output=True, text=True,
                          check=False, env={**environment, "CARGO_TARGET_DIR": str(target), **variables})


class Package(unittest.TestCase):
    def test_package(self):
        """Cargo unpacks the package and builds it, with the library of this repository."""
        done = cargo("package", "--allow-dirty", folder=CRATE, target=TARGET)
        self.assertEqual(done.returncode, 0, done.stderr)
        with tarfile.open(TARGET / "package" / f"imbrolt-{VERSION}.crate") as package:
            names = {name.partition("/")[2] for name in package.getnames()}
        for name in ("Cargo.toml", "README.md", "build.rs", "src/lib.rs", "examples/wall.rs"):
            self.assertIn(name, names)
        self.assertEqual([name for name in names if name.startswith("target")], [])


class Elsewhere(unittest.TestCase):
    """A copy of the crate outside this repository."""

    @classmethod
    def setUpClass(cls):
        folder = tempfile.TemporaryDirectory()
        cls.addClassCleanup(folder.cleanup)
        cls.folder = Path(folder.name)
        shutil.copytree(CRATE, cls.folder / "crate", ignore=shutil.ignore_patterns("target"))

    def checked(self, version=None, **variables):
        """What cargo says with an installed library of a version, or with none."""
        if version:
            (self.folder / "imbrolt.pc").write_text(
                f"libdir={ROOT / 'target' / 'native'}\nName: imbrolt\nDescription: ratings\nVersion: {version}\n")
        else:
            (self.folder / "imbrolt.pc").unlink(missing_ok=True)
        return cargo("check", folder=self.folder / "crate", target=self.folder / "target",
                     PKG_CONFIG_LIBDIR=str(self.folder), **variables)

    def assert_told(self, done, why):
        self.assertNotEqual(done.returncode, 0)
        self.assertIn(f"imbrolt: there is no libimbrolt.a {why}", done.stderr)
        self.assertIn("make install PREFIX=", done.stderr)
        self.assertNotIn("panicked", done.stderr)

    def test_no_library(self):
        self.assert_told(self.checked(), "in target/native of any folder above, and pkg-config knows of none")

    def test_a_library_of_another_version(self):
        major, minor, _ = map(int, VERSION.split("."))
        for version in (f"{major}.{minor + 1}.0", f"{major + 1}.{minor}.0"):
            self.assert_told(self.checked(version), "in target/native of any folder above")

    def test_an_installed_library(self):
        for variables in ({}, {"IMBROLT_ARCHIVE_DIR": ""}):
            done = self.checked(VERSION.rpartition(".")[0] + ".99", **variables)
            self.assertEqual(done.returncode, 0, done.stderr)

    def test_a_folder_that_has_none(self):
        """Then no other is looked for."""
        done = self.checked(VERSION, IMBROLT_ARCHIVE_DIR="here")
        self.assert_told(done, f"in {self.folder.resolve() / 'crate' / 'here'}, the folder of IMBROLT_ARCHIVE_DIR")


if __name__ == "__main__":
    unittest.main()
