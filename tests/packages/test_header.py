"""The header is good C99 and C++11, and every function that it declares can be called."""

import re
import shutil
import subprocess
import tempfile
import unittest
from pathlib import Path

ROOT = Path(__file__).resolve().parents[2]
HEADER = ROOT / "include" / "imbrolt.h"
EVERY_CALL = Path(__file__).with_name("every_call.c")
SMALL_STACK = Path(__file__).with_name("small_stack.c")
NATIVE = ROOT / "target" / "native"
STRICT = ["-Wall", "-Wextra", "-pedantic", "-Werror", f"-I{HEADER.parent}"]

# Compilers that may be there; of each language the first has to be.
LANGUAGES = {
    "C99": (["-x", "c", "-std=c99"], ["cc", "clang"]),
    "C11": (["-x", "c", "-std=c11"], ["cc", "clang"]),
    "C++11": (["-x", "c++", "-std=c++11"], ["g++", "clang++"]),
    "C++17": (["-x", "c++", "-std=c++17"], ["g++", "clang++"]),
}


def compilers():
    for language, (options, names) in LANGUAGES.items():
        for name in names:
            if name == names[0] or shutil.which(name):
                yield f"{name}, {language}", [name, *options, *STRICT]


def run(*words):
    return subprocess.run(words, capture_output=True, text=True, check=False)


class Header(unittest.TestCase):
    def test_alone(self):
        for name, compiler in compilers():
            with self.subTest(name):
                done = run(*compiler, "-fsyntax-only", str(HEADER))
                self.assertEqual((done.returncode, done.stderr), (0, ""))

    def test_every_function_is_declared_and_called(self):
        declared = re.findall(r"^uint32_t (imbrolt_\w+)\(", HEADER.read_text(), flags=re.M)
        called = set(re.findall(r"\b(imbrolt_\w+)\(", EVERY_CALL.read_text()))
        self.assertEqual(set(declared), called)
        exported = run("nm", "--defined-only", "-g", str(NATIVE / "libimbrolt.a")).stdout
        self.assertEqual(set(declared), set(re.findall(r" T (\w+)$", exported, flags=re.M)))

    def test_the_archive_asks_for_what_the_header_says_and_nothing_else(self):
        words = " ".join(HEADER.read_text().replace("*", " ").split())
        said = re.search(r"It needs (.*?) of the C library and nothing else", words)[1].split(" and ")
        needed = run("nm", "-u", str(NATIVE / "libimbrolt.a")).stdout
        self.assertEqual(set(said), set(re.findall(r" U (\w+)$", needed, flags=re.M)))

    def test_every_call(self):
        """With the archive, and with the shared object, which is found by the name that it gives itself."""
        series = (ROOT / "VERSION").read_text().rpartition(".")[0]
        with tempfile.TemporaryDirectory() as folder:
            shared = Path(folder) / f"libimbrolt.so.{series}"
            shared.symlink_to(NATIVE / "libimbrolt.so")
            for library in ([str(NATIVE / "libimbrolt.a")], [str(shared), f"-Wl,-rpath,{folder}"]):
                for name, compiler in compilers():
                    with self.subTest(f"{name}, {library[0]}"):
                        self.call_all(compiler, library, Path(folder) / "every_call")

    def test_register_calls_keep_within_the_stack_that_the_header_names(self):
        needed = re.search(r"A thread that calls on one needs (\d+) KB of stack", HEADER.read_text())[1]
        with tempfile.TemporaryDirectory() as folder:
            program = Path(folder) / "small_stack"
            compiler = ["cc", "-std=c99", *STRICT, "-pthread", f"-DSTACK={needed}"]
            done = run(*compiler, "-o", str(program), str(SMALL_STACK), str(NATIVE / "libimbrolt.a"))
            self.assertEqual((done.returncode, done.stderr), (0, ""))
            done = run(str(program))
            self.assertEqual((done.returncode, done.stdout), (0, ""))

    def call_all(self, compiler, library, program):
        done = run(*compiler, "-o", str(program), str(EVERY_CALL), "-x", "none", *library)
        self.assertEqual((done.returncode, done.stderr), (0, ""))
        done = run(str(program))
        self.assertEqual((done.returncode, done.stdout), (0, ""))


if __name__ == "__main__":
    unittest.main()
