"""The examples of the package's texts and of README.md, and the one that it runs itself."""

import doctest
import importlib
import pkgutil
import unittest

from common import PYTHON, imbrolt, python


def load_tests(_loader, tests, _pattern):
    names = [module.name for module in pkgutil.iter_modules(imbrolt.__path__)]
    modules = [importlib.import_module(f"imbrolt.{name}") for name in names if name != "__main__"]
    for module in (imbrolt, *modules):
        tests.addTest(doctest.DocTestSuite(module))
    tests.addTest(doctest.DocFileSuite(str(PYTHON / "README.md"), module_relative=False))
    return tests


class Example(unittest.TestCase):
    def test_it_runs(self):
        lines = python("-m", "imbrolt").splitlines()
        self.assertEqual(lines[0], f"library: {imbrolt.version()}")
        self.assertEqual(lines[-1], "refused: refusal 1: the number of bands is not the kind's")


if __name__ == "__main__":
    unittest.main()
