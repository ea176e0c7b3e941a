"""The module has all that the header has: every function with its arguments, every number, every word."""

import re
import unittest

import makhnodri
from . import TOP

HEADER = (TOP / "include/makhnodri.h").read_text(encoding="utf-8")
CODE = re.sub(r"[ \t]+$", "", re.sub(r"/\*.*?\*/", "", HEADER, flags=re.S), flags=re.M)
NO_NUMBERS = {"H", "AT_LEAST", "LISTS", "LISTS_OF", "BOXED_LISTS_OF", "MESH_LISTS", "ROW_LISTS", "ROW_LISTS_OF"}  # macros that stand for no number
STRUCTS = {"scene", "buffers", "boxed_scene", "boxed_buffers", "hit", "told", "mesh", "scratch"}  # Scene, arrays, BoxedScene, arrays, Hit ..
TYPES = {"int32_t": "_INT32", "uint16_t": "_UINT16", "uint32_t": "_UINT32", "uint8_t": "_UINT8", "size_t": "_SIZE", "uint64_t": "_UINT64"}


def in_numbers(length):
    return str(getattr(makhnodri, length.group(1), length.group(1)))


def declared():
    """The functions of the library, by name: each parameter as its words and its name."""
    lists = {name: lists.replace("\\\n", " ") for name, lists in re.findall(r"#define (MAKHNODRI_\w*LISTS)\b(?!\()(.*?[^\\])\n", CODE, re.S)}
    functions = {}
    for name, parameters in re.findall(r"^(?:makhnodri_answer|size_t|uint32_t) makhnodri_(\w+)\(((?:[^()]|\([^()]*\))*)\);", CODE, re.M):
        for _ in range(2):  # one stands in another
            parameters = re.sub(r"MAKHNODRI_\w*LISTS", lambda found: lists[found.group()], parameters)
        parameters = re.sub(r"MAKHNODRI_AT_LEAST\((?:MAKHNODRI_)?(\w+)\)", in_numbers, parameters)
        functions[name] = [" ".join(part.split()) for part in parameters.split(",")]
    return functions


def in_c(argument):
    """A row's argument as the header would declare it."""
    if isinstance(argument, makhnodri._Lists):
        return [word for part in argument.parts for word in in_c(part)]
    if isinstance(argument, makhnodri._Place):
        return [f"{'uint32_t' if isinstance(argument, makhnodri._Number) else 'size_t'} {argument.name}"]
    spelt = next(name for name, ours in TYPES.items() if argument.numbers is getattr(makhnodri, ours))
    if isinstance(argument, makhnodri._Fixed):
        return [f"{'' if argument.written else 'const '}{spelt} {argument.name}[{argument.length}]"]
    return [f"{'' if argument.written else 'const '}{spelt} *{argument.name}", f"size_t {argument.name}_length"]


class Header(unittest.TestCase):
    def test_every_function_of_the_library_is_a_row_of_the_table(self):
        rows = {symbol: [word for argument in arguments for word in in_c(argument)] for symbol, _, *arguments in makhnodri._FUNCTIONS}
        self.assertGreaterEqual(len(rows), 19)
        self.assertEqual(rows, declared())

    def test_every_function_of_the_header_has_its_name_here(self):
        names = set(re.findall(r"\bmakhnodri_(\w+)\(", CODE))
        self.assertGreater(len(names), 30)
        for name in sorted(names):
            self.assertTrue(callable(getattr(makhnodri, name.removesuffix("_slices"), None)), f"makhnodri_{name} is not in the module")

    def test_every_number_of_the_header_is_here(self):
        numbers = dict(re.findall(r"^#define MAKHNODRI_(\w+) (-?\d+)$", CODE, re.M))
        numbers |= dict(re.findall(r"^\s*MAKHNODRI_(\w+) = (\d+),?\s*$", CODE, re.M))
        named = set(re.findall(r"#define MAKHNODRI_(\w+)", CODE)) | set(re.findall(r"^\s*MAKHNODRI_(\w+) =", CODE, re.M))
        self.assertEqual(named - set(numbers), NO_NUMBERS | {"VERSION"})
        for name, number in numbers.items():
            self.assertEqual(getattr(makhnodri, name, None), int(number), name)
        self.assertIn(f'#define MAKHNODRI_VERSION "{makhnodri.VERSION}"\n', HEADER)

    def test_every_word_is_the_header_s(self):
        words = dict(re.findall(r'case MAKHNODRI_(\w+): return "(.*?)";', CODE))
        self.assertEqual(len(words), len(makhnodri.Word) + len(makhnodri._REFUSALS))
        for name, said in words.items():
            number = getattr(makhnodri, name)
            self.assertEqual(makhnodri.word(number) if isinstance(number, makhnodri.Word) else makhnodri.refusal_words(number), said)
        self.assertEqual((makhnodri.word(5), makhnodri.refusal_words(0), makhnodri.refusal_words(19)), ("no word", "not refused", "no refusal"))

    def test_structs_have_their_stand_ins(self):
        self.assertEqual(set(re.findall(r"^} makhnodri_(\w+);", CODE, re.M)), STRUCTS)
        lists = re.search(r"typedef struct makhnodri_scene \{(.*?)\}", CODE, re.S).group(1)
        self.assertEqual(tuple(re.findall(r"\*(\w+);", lists)), makhnodri.Scene.__slots__)

    def test_answers_and_entries_come_apart_as_in_c(self):
        self.assertEqual((makhnodri.refusal((7 << 32) + 3073), makhnodri.value((7 << 32) + 3073), makhnodri.refusal(9)), (7, 3073, 0))
        self.assertEqual(makhnodri.entry(makhnodri.EE, 1, 1023), (1 << 20) + (1 << 10) + 1023)
        pair = makhnodri.Pair.of_entry((1 << 20) + (5 << 10) + 7)
        self.assertEqual((pair, str(pair), pair.entry), ((makhnodri.EE, 5, 7), "ee 5 7", (1 << 20) + (5 << 10) + 7))
        kinds = [makhnodri.entry_kind(number) for number in ((1 << 20) - 1, 1 << 20, 1 << 21, (1 << 32) - 1)]
        self.assertEqual(kinds, [makhnodri.PT, makhnodri.EE, makhnodri.EE, makhnodri.EE])
        self.assertEqual((makhnodri.part(524288), makhnodri.contact_time([0, 1, 2, 3, 4]), makhnodri.contact_share([0, 1, 2, 3, 4], 1)), (0.5, 2**-20, 3 * 2**-20))
