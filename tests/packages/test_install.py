"""`make install` puts everything where it can be used without the repository, and `make uninstall` takes it away."""

import os
import shutil
import subprocess
import tempfile
import unittest
from pathlib import Path

ROOT = Path(__file__).resolve().parents[2]
VERSION = (ROOT / "VERSION").read_text().strip()
SERIES = VERSION.rpartition(".")[0]
EVERY_CALL = Path(__file__).with_name("every_call.c")

FILES = {
    "bin/rate": 0o755,
    "include/imbrolt.h": 0o644,
    "lib/libimbrolt.a": 0o644,
    f"lib/libimbrolt.so.{VERSION}": 0o755,
    "lib/pkgconfig/imbrolt.pc": 0o644,
    "share/man/man1/rate.1": 0o644,
}
LINKS = {f"lib/libimbrolt.so.{SERIES}": f"libimbrolt.so.{VERSION}", "lib/libimbrolt.so": f"libimbrolt.so.{SERIES}"}


def run(*words, **options):
    return subprocess.run([str(word) for word in words], capture_output=True, text=True, check=False, **options)


def make(*words):
    return run("make", "-C", ROOT, *words)


def names_below(folder):
    return {str(path.relative_to(folder)) for path in folder.rglob("*") if not path.is_dir()}


class Install(unittest.TestCase):
    @classmethod
    def setUpClass(cls):
        folder = tempfile.TemporaryDirectory()
        cls.addClassCleanup(folder.cleanup)
        cls.folder = Path(folder.name)
        cls.prefix = cls.folder / "prefix"
        done = make("install", f"PREFIX={cls.prefix}")
        assert done.returncode == 0, done.stdout + done.stderr

    def test_files(self):
        self.assertEqual(names_below(self.prefix), {*FILES, *LINKS})
        for name, mode in FILES.items():
            self.assertEqual((self.prefix / name).stat().st_mode & 0o777, mode, name)
        for name, to in LINKS.items():
            self.assertEqual(os.readlink(self.prefix / name), to)

    def test_version(self):
        self.assertEqual(run(self.prefix / "bin/rate", "--version").stdout, f"rate (Imbrolt) {VERSION}\n")
        self.assertIn(f'IMBROLT_VERSION_TEXT "{VERSION}"', (self.prefix / "include/imbrolt.h").read_text())
        self.assertIn(f'"Imbrolt {VERSION}"', (self.prefix / "share/man/man1/rate.1").read_text())
        self.assertEqual(self.pkg_config("--modversion"), [VERSION])
        self.assertEqual(run("ar", "t", self.prefix / "lib/libimbrolt.a").stdout, f"imbrolt-{VERSION}.o\n")
        self.assertIn(f"[libimbrolt.so.{SERIES}]", run("readelf", "-d", self.prefix / "lib/libimbrolt.so").stdout)

    def pkg_config(self, *words):
        done = run("pkg-config", *words, "imbrolt",
                   env={**os.environ, "PKG_CONFIG_PATH": str(self.prefix / "lib/pkgconfig")})
        self.assertEqual((done.returncode, done.stderr), (0, ""))
        return done.stdout.split()

    def test_a_program_with_the_shared_object(self):
        program = self.folder / "shared"
        done = run("cc", "-o", program, EVERY_CALL, *self.pkg_config("--cflags", "--libs"))
        self.assertEqual((done.returncode, done.stderr), (0, ""))
        done = run(program, env={**os.environ, "LD_LIBRARY_PATH": str(self.prefix / "lib")})
        self.assertEqual((done.returncode, done.stdout, done.stderr), (0, "", ""))
        self.assertIn(f"libimbrolt.so.{SERIES}", run("readelf", "-d", program).stdout)

    def test_a_program_with_the_archive(self):
        program = self.folder / "static"
        done = run("cc", "-o", program, EVERY_CALL, *self.pkg_config("--cflags"), self.prefix / "lib/libimbrolt.a")
        self.assertEqual((done.returncode, done.stderr), (0, ""))
        self.assertEqual(run(program, env={}).returncode, 0)

    def test_the_command_needs_nothing_else(self):
        done = run(self.prefix / "bin/rate", ROOT / "examples/requests.tsv", env={}, cwd="/")
        self.assertEqual((done.returncode, done.stderr), (0, ""))
        lines = (ROOT / "examples/requests.tsv").read_bytes().count(b"\n")
        self.assertEqual(done.stdout.count("\n"), lines)

    def test_manual(self):
        """It is set without a warning, and has every option and status."""
        self.assertTrue(shutil.which("groff"), "groff sets the manual page")
        done = run("groff", "-man", "-Tutf8", "-ww", self.prefix / "share/man/man1/rate.1")
        self.assertEqual((done.returncode, done.stderr), (0, ""))
        page = (self.prefix / "share/man/man1/rate.1").read_text().replace("\\-", "-")
        for word in ("--progress", "--help", "--version", "\n.B 0\n", "\n.B 1\n", "\n.B 2\n", "141"):
            self.assertIn(word, page)

    def test_a_staged_install(self):
        """DESTDIR stands before the PREFIX, and is seen in no file."""
        stage = self.folder / """a stage's "folder" `here`"""
        self.assertEqual(make("install", f"DESTDIR={stage}", "PREFIX=/opt/imbrolt").returncode, 0)
        self.assertEqual(names_below(stage / "opt/imbrolt"), {*FILES, *LINKS})
        config = (stage / "opt/imbrolt/lib/pkgconfig/imbrolt.pc").read_text()
        self.assertTrue(config.startswith("prefix=/opt/imbrolt\n"))
        self.assertEqual(make("uninstall", f"DESTDIR={stage}", "PREFIX=/opt/imbrolt").returncode, 0)
        self.assertEqual(names_below(stage), set())

    def test_a_prefix_that_is_none(self):
        for prefix in ("", "here", "/tmp/a b", "/tmp/a|b", "~", "/tmp/a'b", '/tmp/a"b', "/tmp/`b`"):
            done = make("install", f"PREFIX={prefix}", f"DESTDIR={self.folder}/none")
            self.assertNotEqual(done.returncode, 0, prefix)
            self.assertIn("PREFIX has to be a path from the root", done.stderr)
        self.assertFalse((self.folder / "none").exists())


if __name__ == "__main__":
    unittest.main()
