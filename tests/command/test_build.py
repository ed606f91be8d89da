"""bin/rate builds what it runs: again when the sources have changed, by their sum, and only then.

Each test has a copy of the repository, and a toolchain whose `rt` proves nothing.
"""

import ctypes
import fcntl
import os
import shutil
import subprocess
import tempfile
import unittest
from pathlib import Path

from command import ANSWER, LINE, ROOT, run

SOURCES = ("bin", "build", "command", "crates", "crates.txt", "VERSION")
BUILT = ("rate", "rate.sum", "words", "words.sum")


class Copied(unittest.TestCase):
    def setUp(self):
        folder = tempfile.TemporaryDirectory()
        self.addCleanup(folder.cleanup)
        self.tree, self.kit = Path(folder.name) / "tree", Path(folder.name) / "kit"
        self.tree.mkdir()
        for name in SOURCES:
            source = ROOT / name
            if source.is_dir():
                shutil.copytree(source, self.tree / name, ignore=shutil.ignore_patterns("out"))
            else:
                shutil.copy2(source, self.tree / name)
        (self.kit / "bin").mkdir(parents=True)
        self.environment = {**os.environ, "PATH": f"{self.kit}/bin:{os.environ['PATH']}"}

    def make_tool(self, name, script):
        """A command that is found before all others."""
        tool = self.kit / "bin" / name
        tool.write_text(f"#!/bin/sh\n{script}\n")
        tool.chmod(0o755)
        return tool

    def rate(self, *words, given=LINE):
        return run(*words, program=self.tree / "bin" / "rate", given=given, env=self.environment)

    def native(self, *words, **options):
        return subprocess.run([self.tree / "build" / "native", *words], env=self.environment, capture_output=True,
                              text=True, check=False, **options)


class Build(Copied):
    """What is built here is in the copy, too; rt says that it was called, and fails."""

    def setUp(self):
        super().setUp()
        subprocess.run([ROOT / "build" / "native", "words"], check=True, capture_output=True)
        native = self.tree / "target" / "native"
        native.mkdir(parents=True)
        for name in BUILT:
            shutil.copy2(ROOT / "target" / "native" / name, native / name)
        self.trace = self.kit / "trace"
        self.make_tool("rt", f'echo "$@" >>"{self.trace}"\necho "rt: laws NOT PROVED"\nexit 1')

    def test_what_is_built_runs(self):
        self.assertEqual(self.rate(), (0, ANSWER, ""))
        self.assertFalse(self.trace.exists())

    def test_other_times_of_the_sources_change_nothing(self):
        for path in (self.tree / "crates").rglob("*"):
            os.utime(path, (2_000_000_000, 2_000_000_000))
        self.assertEqual(self.rate(), (0, ANSWER, ""))
        self.assertFalse(self.trace.exists())

    def test_other_sources_are_built_before_anything_is_answered(self):
        """The old program answers nothing, whatever the times of the sources say."""
        for name in ("crates/laws/specs/Lib.antt", "command/rate.c", "crates.txt", "VERSION"):
            with self.subTest(name):
                source = self.tree / name
                before, times = source.read_bytes(), source.stat()
                source.write_bytes(before + b"\n")
                os.utime(source, ns=(times.st_atime_ns, times.st_mtime_ns))
                status, answers, messages = self.rate()
                self.assertEqual((status, answers), (1, b""))
                self.assertIn("build: proving and building rate", messages)
                self.assertIn("rt: laws NOT PROVED", messages)
                self.assertTrue(self.trace.exists())
                self.trace.unlink()
                source.write_bytes(before)
                self.assertEqual(self.rate(), (0, ANSWER, ""))
                self.assertFalse(self.trace.exists())

    def test_what_no_build_reads_is_no_source(self):
        for name in ("crates/laws/specs/.Lib.antt.swp", "crates/laws/specs/Lib.antt~", "command/rate.1"):
            (self.tree / name).write_text("")
        self.environment["LC_ALL"] = "da_DK.UTF-8"
        self.assertEqual(self.rate(), (0, ANSWER, ""))
        self.assertFalse(self.trace.exists())

    def test_what_was_built_of_other_sources_does_not_pass_for_fresh(self):
        """Not even where they change again during the build, and then back to what they were."""
        native = self.tree / "target" / "native"
        words = self.tree / "command" / "words.c"
        before = words.read_text()
        words.write_text(before.replace("(Imbrolt)", "(Other)"))
        compiler = self.make_tool("cc", f'{shutil.which("cc")} "$@" || exit 1\necho "#error" >>"{words}"')
        self.assertEqual(self.native("words").returncode, 1)
        words.write_text(before)
        compiler.unlink()
        self.assertEqual(run("--version", program=native / "words"), run("--version"))
        self.assertEqual(self.native("--fresh", "words").returncode, 0)

    def test_a_library_is_fresh_with_both_of_its_files(self):
        for name in ("libimbrolt.a", "libimbrolt.so", "library.sum"):
            shutil.copy2(ROOT / "target" / "native" / name, self.tree / "target" / "native" / name)
        self.assertEqual(self.native("--fresh", "library").returncode, 0)
        (self.tree / "target" / "native" / "libimbrolt.so").unlink()
        self.assertEqual(self.native("--fresh", "library").returncode, 1)

    def test_what_is_fresh_needs_no_lock(self):
        """Nor to be written: it may be another's."""
        native = self.tree / "target" / "native"
        with open(native / "lock", "w") as lock:
            fcntl.flock(lock, fcntl.LOCK_EX)
            self.assertEqual(self.native("rate", timeout=60).stdout, f"{native}/rate\n")
            self.assertEqual(self.rate("--version")[0], 0)
            (self.tree / "crates.txt").write_text("")
            self.assertEqual(self.rate("--version")[::2], (0, ""))
            with self.assertRaises(subprocess.TimeoutExpired) as waiting:
                self.native("rate", timeout=1)
        self.assertIn(b"another build is running: waiting for it", waiting.exception.stderr)

    def test_tools_that_are_missing_are_named(self):
        tools = self.tree.parent / "tools"
        tools.mkdir()
        for name in ("sh", "dirname", "readlink", "find", "sort", "sha256sum", "uname", "cat", "mkdir", "tee", "sed",
                     "rm", "cc", "ar", "flock", "mv"):
            (tools / name).symlink_to(shutil.which(name))
        shutil.rmtree(self.tree / "target")
        self.environment["PATH"] = str(tools)
        for name in ("cc", "flock", "sha256sum"):
            (tools / name).unlink()
            status, answers, messages = self.rate("--version")
            self.assertEqual((status, answers), (1, b""))
            self.assertIn(f"build: {name} is needed, and is not on the PATH\n", messages)
            (tools / name).symlink_to(shutil.which(name))

    def test_a_new_and_a_lost_source_are_other_sources(self):
        (self.tree / "crates" / "laws" / "specs" / "New.antt").write_text("")
        self.assertEqual(self.rate()[:2], (1, b""))
        (self.tree / "crates" / "laws" / "specs" / "New.antt").unlink()
        (self.tree / "crates" / "laws" / "specs" / "Lib.antt").unlink()
        self.assertEqual(self.rate()[:2], (1, b""))

    def test_words_that_ask_for_no_rating_build_nothing(self):
        shutil.rmtree(self.tree / "target")
        self.assertEqual(self.rate("--version")[::2], (0, ""))
        self.assertEqual(self.rate("--help")[::2], (0, ""))
        status, answers, messages = self.rate("--unknown")
        self.assertEqual((status, answers), (2, b""))
        self.assertIn("usage: rate", messages)
        self.assertFalse(self.trace.exists())

    def test_without_the_toolchain_it_is_told_what_is_missing(self):
        shutil.rmtree(self.tree / "target")
        self.environment["PATH"] = "/usr/bin:/bin"
        if shutil.which("rt", path=self.environment["PATH"]):
            self.skipTest("rt stands among the system's commands")
        status, answers, messages = self.rate()
        self.assertEqual((status, answers), (1, b""))
        self.assertIn("rt, the command of the Rattle kit, is not on the PATH", messages)

    def test_it_runs_from_anywhere_and_by_a_link(self):
        link = self.tree.parent / "link"
        link.symlink_to(self.tree / "bin" / "rate")
        self.assertEqual(run(program=link, given=LINE, cwd="/", env=self.environment), (0, ANSWER, ""))


class OnX86(Copied):
    """What the toolchain made is taken as it is."""

    def setUp(self):
        super().setUp()
        native = ROOT / "target" / "native"
        self.version = (ROOT / "VERSION").read_text().strip()
        shutil.copy2(native / f"imbrolt-{self.version}.o", self.kit / "desk_c.o")
        shutil.copy2(native / "rate.o", self.kit / "rate.o")
        shutil.copytree(Path(shutil.which("rt")).resolve().parents[1] / "c", self.kit / "c")
        self.make_tool("uname", "echo x86_64")
        self.make_tool("rt", 'echo "rt: ok"')
        self.make_tool("rattle", f"""
while [ $# -gt 0 ]; do
    case $1 in
    --crate-name) name=$2 ;;
    -o) made=$2 ;;
    esac
    shift
done
case $name in
rate) cp "{self.kit}/rate.o" "$made" ;;
desk_c) ar rcs "$made" "{self.kit}/desk_c.o" ;;
esac
""")

    def test_another_machine_is_told_so(self):
        self.make_tool("uname", "echo aarch64")
        status, answers, messages = self.rate()
        self.assertEqual((status, answers), (1, b""))
        self.assertIn("Rattle builds for x86-64, and this machine is another (aarch64)", messages)

    def test_command(self):
        status, answers, messages = self.rate()
        self.assertEqual((status, answers), (0, ANSWER))
        self.assertIn("rt: ok\n", messages)
        self.assertEqual(self.rate(), (0, ANSWER, ""))

    def test_library(self):
        built = self.native("library")
        archive = self.tree / "target" / "native" / "libimbrolt.a"
        self.assertEqual((built.returncode, built.stdout), (0, f"{archive}\n"))
        listed = subprocess.run(["ar", "t", archive], capture_output=True, text=True, check=True)
        self.assertEqual(listed.stdout, f"imbrolt-{self.version}.o\n")
        library = ctypes.CDLL(str(archive.with_name("libimbrolt.so")))
        major, minor, patch = map(int, self.version.split("."))
        self.assertEqual(library.imbrolt_version(), 10000 * major + 100 * minor + patch)


if __name__ == "__main__":
    unittest.main()
