"""What pyproject.toml cannot say: the shared object goes into the wheel, and nothing is left here.

The shared object is the file that the environment variable IMBROLT_LIBRARY names, or else
target/native/libimbrolt.so of the repository.
"""

import os
from pathlib import Path
from tempfile import TemporaryDirectory

from setuptools import Distribution, setup
from setuptools.command.build_py import build_py

try:
    from setuptools.command.bdist_wheel import bdist_wheel
except ImportError:  # setuptools before 70.1
    try:
        from wheel.bdist_wheel import bdist_wheel
    except ImportError:
        raise SystemExit("imbrolt: a wheel is built with setuptools 70.1 or later, or with setuptools and wheel:"
                         " this Python has neither") from None

HERE = Path(__file__).resolve().parent
BY_MAKE = HERE.joinpath("..", "..", "target", "native", "libimbrolt.so").resolve()


def library() -> Path:
    """The shared object."""
    named = os.environ.get("IMBROLT_LIBRARY")
    file = Path(named).absolute() if named else BY_MAKE
    if not file.is_file():
        raise SystemExit(
            f"imbrolt: there is no {file} to put into the wheel. Run `make` in the repository,"
            " which writes target/native/libimbrolt.so; or set IMBROLT_LIBRARY to its file.")
    return file


class BuildWithLibrary(build_py):
    """The package's files and the shared object."""

    def run(self) -> None:
        file = library()
        super().run()
        folder = os.path.join(self.build_lib, "imbrolt")
        self.mkpath(folder)
        self.copy_file(str(file), os.path.join(folder, "libimbrolt.so"))


class ForThisMachine(Distribution):
    """A package that is not of Python alone."""

    def has_ext_modules(self) -> bool:
        return True


class WheelForThisMachine(bdist_wheel):
    """The shared object is for one platform, and for every Python of it."""

    def get_tag(self) -> tuple:
        _, _, platform = super().get_tag()
        return "py3", "none", platform


with TemporaryDirectory() as scratch:
    setup(
        distclass=ForThisMachine,
        cmdclass={"build_py": BuildWithLibrary, "bdist_wheel": WheelForThisMachine},
        options={"build": {"build_base": scratch}, "egg_info": {"egg_base": scratch}},
    )
