"""What the module tells of itself: every public name has its docstring and its types, and `help(makhnodri)` has them."""

import enum
import inspect
import pydoc
import typing
import unittest

import makhnodri
from . import TOP


def is_own(thing):
    return getattr(thing, "__module__", None) == "makhnodri"


def public(owner):
    return [(name, thing) for name, thing in vars(owner).items() if not name.startswith("_")]


def functions_of(owner, prefix=""):
    """The public functions of the module or of a class, and those behind a property or a method of the class."""
    for name, thing in public(owner):
        thing = getattr(thing, "__func__", getattr(thing, "fget", thing))
        if inspect.isfunction(thing) and is_own(thing):
            yield prefix + name, thing


CLASSES = [(name, thing) for name, thing in public(makhnodri) if inspect.isclass(thing) and is_own(thing)]
FUNCTIONS = [*functions_of(makhnodri), *(found for name, one in CLASSES for found in functions_of(one, f"{name}."))]


class Help(unittest.TestCase):
    def test_every_public_name_has_its_docstring(self):
        self.assertGreater(len(CLASSES), 7)
        self.assertGreater(len(FUNCTIONS), 60)
        for name, thing in [*CLASSES, *FUNCTIONS]:
            self.assertTrue(thing.__doc__ and thing.__doc__.strip(), f"{name} has no docstring")
            self.assertFalse(thing.__doc__.startswith(f"{name}("), f"{name} has one that was made for it")

    def test_every_public_function_has_its_types(self):
        for name, function in FUNCTIONS:
            hints = typing.get_type_hints(function)
            wanted = [one for one in inspect.signature(function).parameters if one not in ("self", "cls")]
            self.assertEqual([one for one in (*wanted, "return") if one not in hints], [], name)
        for name, one in CLASSES:
            if not issubclass(one, enum.Enum):
                self.assertIn("return", typing.get_type_hints(one.__init__) or {"return": None}, name)

    def test_what_is_stated_of_a_function_is_its_row(self):
        for symbol, given, *arguments in makhnodri._FUNCTIONS:
            function = getattr(makhnodri, symbol.removesuffix("_slices"))
            stated = inspect.signature(function).parameters.values()
            self.assertEqual([one.name for one in stated], [argument.name for argument in arguments], symbol)
            self.assertEqual([one.default is None for one in stated], [argument.optional for argument in arguments], symbol)
            self.assertTrue(all(one.kind is one.POSITIONAL_ONLY for one in stated), symbol)
            for one, argument in zip(stated, arguments):
                plain = "int" if isinstance(argument, makhnodri._Place) else getattr(argument, "stated", None)
                buffer = "WriteableBuffer" if getattr(argument, "written", False) else "ReadableBuffer"
                self.assertIn(one.annotation, (plain,) if plain else (buffer, f"typing.Optional[{buffer}]"), f"{symbol} {one.name}")
            told = {makhnodri._TOLD_COUNT: "int", makhnodri._TOLD_EDGES: "typing.Tuple[int, int]", makhnodri._TOLD_KEPT: "Kept"}
            answer = {makhnodri.Word: "Word", int: "int", bool: "bool", **told}.get(given, "None")
            self.assertEqual(inspect.signature(function).return_annotation, answer, symbol)

    def test_help_has_them(self):
        page = pydoc.plain(pydoc.render_doc(makhnodri))
        for name, _ in FUNCTIONS:
            self.assertRegex(page, rf"\b{name.split('.')[-1]}\b")
        self.assertIn("settle_scene(scene: 'Scene', list: 'WriteableBuffer', words: 'WriteableBuffer', /) -> 'int'", page)
        self.assertNotIn("TYPE_CHECKING", page)

    def test_type_checkers_are_told_so(self):
        self.assertTrue((TOP / "bindings/python/makhnodri/py.typed").exists())
