"""The library: where it is looked for, and its functions as include/imbrolt.h declares them."""

from __future__ import annotations

import ctypes
import os
from ctypes.util import find_library
from functools import lru_cache
from pathlib import Path
from typing import Any, Callable, Optional

from ._types import Refused
from ._version import __version__

NAME = "libimbrolt.so"
HERE = Path(__file__).resolve().parent

u16, u32, u64, size = ctypes.c_uint16, ctypes.c_uint32, ctypes.c_uint64, ctypes.c_size_t
u8, i32, f32 = ctypes.c_uint8, ctypes.c_int32, ctypes.c_float
bytes_at, shorts_at, longs_at = (ctypes.POINTER(unit) for unit in (u8, u16, u64))
ints_at, floats_at = (ctypes.POINTER(unit) for unit in (i32, f32))

ARGUMENTS: dict[str, tuple[Any, ...]] = {
    "version": (),
    "take_reading": (u32, f32, ints_at, size),
    "rate": (u32, ints_at, size, u32, ints_at, size),
    "rate_readings": (u32, bytes_at, size, floats_at, size, ints_at, size),
    "cover": (ints_at, size, u32, ints_at, size),
    "correct_field": (i32, i32, ints_at, size),
    "correct_laboratory": (i32, i32, ints_at, size),
    "standardized": (f32, f32, f32, f32, ints_at, size),
    "octaves": (ints_at, size, u32, ints_at, size),
    "specimens": (bytes_at, size, floats_at, size, ints_at, size),
    "grade": (u32, bytes_at, size, floats_at, size, ints_at, size),
    "lift": (u32, ints_at, size, u32, i32, shorts_at, size, ints_at, size),
    "answer_line": (bytes_at, size, bytes_at, size, size, longs_at, size),
    "answer_block": (bytes_at, size, u32, u32, bytes_at, size, longs_at, size),
    "open_register": (longs_at,),
    "bill": (longs_at, u64, bytes_at, size, u32, ints_at, size, u32, u32, ints_at, size),
    "owed": (longs_at, u64, ints_at, size),
    "close": (longs_at, u64, ints_at, size),
}

# How many numbers a function writes to the array that is lent to it last.
PLACES = {
    "take_reading": 2, "rate": 6, "rate_readings": 6, "cover": 3, "correct_field": 2,
    "correct_laboratory": 1, "standardized": 2, "octaves": 6, "specimens": 17, "grade": 6,
    "lift": 1, "answer_line": 1, "answer_block": 3, "bill": 7, "owed": 1, "close": 1,
}

HELP = (f"Run `make` in the repository, which writes target/native/{NAME}; or install the wheel,"
        " which has the library in it; or set IMBROLT_LIBRARY to its file.")


class LibraryNotFound(OSError):
    """There is no library where it is looked for."""


class LibraryMismatch(OSError):
    """The library that was found is none for this package."""


def own_files() -> list[Path]:
    """The library's files by the package's own place: beside it, and in its repository."""
    files = [HERE / NAME]
    if HERE.parts[-3:] == ("bindings", "python", "imbrolt"):
        files.append(HERE.parents[2] / "target" / "native" / NAME)
    return files


def of_the_system() -> Optional[ctypes.CDLL]:
    """The library that the system finds by its name, if it does: that of this version first."""
    series = __version__.rpartition(".")[0]
    for name in filter(None, (f"{NAME}.{series}", find_library("imbrolt"), NAME)):
        try:
            return ctypes.CDLL(name)
        except OSError:
            continue
    return None


def loaded(file: Path) -> ctypes.CDLL:
    """The library of a file."""
    try:
        return ctypes.CDLL(str(file))
    except OSError as error:
        raise LibraryMismatch(f"{file} cannot be loaded: {error}. {HELP}") from error


def found() -> ctypes.CDLL:
    """The library, from the first place that has one; where IMBROLT_LIBRARY is set, from there."""
    named = os.environ.get("IMBROLT_LIBRARY")
    files = [Path(named).absolute()] if named else own_files()
    for file in files:
        if file.is_file():
            return loaded(file)
    if named:
        raise LibraryNotFound(f"no {NAME}: IMBROLT_LIBRARY names {named}, which is no file. {HELP}")
    library = of_the_system()
    if library is None:
        looked = ", ".join(map(str, files))
        raise LibraryNotFound(
            f"no {NAME}: looked for {looked} and among the system's libraries. {HELP}")
    return library


def declared(library: ctypes.CDLL, name: str) -> Callable[..., int]:
    """A function of the library, by its name behind `imbrolt_`."""
    try:
        function = getattr(library, f"imbrolt_{name}")
    except AttributeError:
        raise LibraryMismatch(
            f"{library._name} has no imbrolt_{name}: it is not the library of imbrolt"
            f" {__version__}. {HELP}") from None
    function.argtypes = ARGUMENTS[name]
    function.restype = u32
    return function


def check_version(library: ctypes.CDLL) -> None:
    """Refuses a library of another version than the package's.

    The first two parts have to be the same: with either of them calls, places and refusals may
    change. The third is free, so that a library in which a fault was mended can take the place
    of the one that came with the package.
    """
    number = declared(library, "version")()
    first, second, third = number // 10000, number // 100 % 100, number % 100
    if __version__.split(".")[:2] != [str(first), str(second)]:
        raise LibraryMismatch(
            f"{library._name} has version {first}.{second}.{third}, and this is imbrolt"
            f" {__version__}. {HELP}")


@lru_cache(maxsize=None)
def functions() -> dict[str, Callable[..., int]]:
    """The library's functions. It is loaded at their first use; a failure is not remembered."""
    library = found()
    check_version(library)
    return {name: declared(library, name) for name in ARGUMENTS}


def answer(name: str, *arguments: Any) -> list[int]:
    """Calls a function that answers with numbers; a refusal is raised."""
    out = (ARGUMENTS[name][-2]._type_ * PLACES[name])()
    number = functions()[name](*arguments, out, len(out))
    # Nothing stays lent while a refusal is handled: a bytearray could not be made longer.
    del arguments
    if number:
        raise Refused(number)
    return list(out)
