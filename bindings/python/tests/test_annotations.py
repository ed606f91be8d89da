"""Everything public says what it takes and what it gives."""

import inspect
import typing
import unittest

from common import PACKAGE, imbrolt


def public_members(owner):
    """The functions of a class that are its own, and public or special."""
    for name, member in vars(owner).items():
        if isinstance(member, property):
            member = member.fget
        member = getattr(member, "__func__", member)
        is_own = getattr(member, "__module__", None) == owner.__module__
        if inspect.isfunction(member) and is_own and (name[0] != "_" or name.endswith("__")):
            yield member


def public_functions():
    """What can be called from outside: the functions of __all__, and of its classes."""
    for name in imbrolt.__all__:
        public = getattr(imbrolt, name)
        if inspect.isfunction(public):
            yield public
        elif inspect.isclass(public):
            yield from public_members(public)


def not_annotated(function):
    """The parameters of a function without a type, and its result."""
    hints = typing.get_type_hints(function)
    names = [name for name in inspect.signature(function).parameters if name not in ("self", "cls")]
    return [name for name in (*names, "return") if name not in hints]


class Annotations(unittest.TestCase):
    def test_functions(self):
        functions = list(public_functions())
        names = {function.__qualname__ for function in functions}
        self.assertLessEqual({"rate", "level", "Register.from_bytes", "Refused.__init__"}, names)
        for function in functions:
            with self.subTest(function=function.__qualname__):
                self.assertEqual(not_annotated(function), [])

    def test_fields(self):
        for name in imbrolt.__all__:
            public = getattr(imbrolt, name)
            if inspect.isclass(public) and hasattr(public, "_fields"):
                with self.subTest(type=name):
                    self.assertEqual(tuple(typing.get_type_hints(public)), public._fields)

    def test_attributes(self):
        for owner, name in ((imbrolt.Refusal, "sentence"), (imbrolt.Refused, "refusal"),
                            (imbrolt.Refused, "sentence"), (imbrolt.Register, "SIZE")):
            self.assertIn(name, typing.get_type_hints(owner))

    def test_all_is_there(self):
        self.assertEqual(len(imbrolt.__all__), len(set(imbrolt.__all__)))
        public = {name for name in vars(imbrolt) if not name.startswith("_")}
        self.assertEqual(public - set(imbrolt.__all__), set())
        self.assertTrue((PACKAGE / "py.typed").is_file())


if __name__ == "__main__":
    unittest.main()
