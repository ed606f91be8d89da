"""The command under test, and request lines with their answers, as the reference stored them."""

import os
import subprocess
from pathlib import Path

ROOT = Path(__file__).resolve().parents[2]
RATE = os.environ.get("IMBROLT_RATE", str(ROOT / "target" / "native" / "rate"))

STORED = ROOT / "crates" / "rate"
REQUESTS = (STORED / "stdin").read_bytes()
ANSWERS = (STORED / "stdout").read_bytes()

# Document 01's example: an octave set, and the same with a band too few.
LINE = b"A1\tK2\t24.0\t33.0\t40.0\t43.0\t44.0\n"
ANSWER = b"A1\tK2\t0\t42\t-2\t-6\t0\t=\n"
SHORT_LINE = b"A1\tK4\t24.0\t33.0\t40.0\t43.0\n"
SHORT_ANSWER = b"A1\tK4\t1\n"
NO_REQUEST = b"?\t?\t11\n"


def run(*words, program=RATE, given=b"", **options):
    """The command's status, output and messages."""
    if "stdin" not in options:
        options["input"] = given
    for stream in ("stdout", "stderr"):
        options.setdefault(stream, subprocess.PIPE)
    done = subprocess.run([program, *map(str, words)], timeout=300, check=False, **options)
    return done.returncode, done.stdout, (done.stderr or b"").decode()
