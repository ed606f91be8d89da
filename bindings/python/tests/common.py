"""The package under test, from the folder above this one; examples; and Pythons of their own."""

import os
import subprocess
import sys
from pathlib import Path

PYTHON = Path(__file__).resolve().parents[1]
PACKAGE = PYTHON / "imbrolt"
ROOT = PYTHON.parents[1]
sys.path.insert(0, str(PYTHON))

import imbrolt

DOOR = [240, 330, 400, 430, 440]
DOOR_SHEET = imbrolt.Sheet(42, -2, -6, 0, False)
REQUEST = b"A1\tK4\t24.0\t33.0\t40.0\t43.0\n"
ANSWER = b"A1\tK4\t1\n"


def readings(*values):
    return [imbrolt.level(value) for value in values]


def refusal_of(call, *arguments):
    """What a call is refused for."""
    try:
        answer = call(*arguments)
    except imbrolt.Refused as refused:
        return refused.refusal
    raise AssertionError(f"answered: {answer}")


def library_file():
    """The library that the tests use."""
    return Path(imbrolt._library.found()._name).resolve()


def environment(**changes):
    """The variables of this process with some changed; those of value None go."""
    variables = {**os.environ, "PYTHONDONTWRITEBYTECODE": "1", **changes}
    return {name: value for name, value in variables.items() if value is not None}


def python(*words, cwd=None, path=PYTHON, **variables):
    """What a Python of its own prints, with the package of some folder; it has to end well."""
    done = subprocess.run([sys.executable, *words], cwd=cwd, capture_output=True, text=True,
                          env=environment(PYTHONPATH=str(path), **variables))
    if done.returncode:
        raise AssertionError(done.stderr)
    return done.stdout
