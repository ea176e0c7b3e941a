"""Exact contact verdicts for a mesh that moves from a start to an end: include/makhnodri.h from Python, with the standard library alone.

    import makhnodri
    scene = makhnodri.Scene.read(open("scenes/printed.scene", "rb").read())
    for pair, word in scene.settled():
        print(pair, word)                      # pt 3 0 hit

The functions of C are here under their names without `makhnodri_`, and answer and leave behind what include/makhnodri.h says. They take a
`Scene` in the place of C's struct, and a buffer in the place of a pointer and its length: whatever has Python's buffer protocol, holds numbers of
the right type one behind the other, and, where the call writes, may be written (array.array, memoryview, bytes, bytearray, ctypes and numpy
arrays, of any number of dimensions). It is lent as it is and never copied. What is no such buffer is a TypeError, one that C would need longer a
ValueError; a refusal of the library is `Refused`, and no lent number has changed then.

A scene has at most 512 vertices. What is larger is a `Mesh`, of any size: its pairs are asked for by rows, a stretch at a time, by as many threads as
one likes, each with a `Scratch` of its own.

The library is libmakhnodri.so, which `./makhnodri library` makes: in the folder that MAKHNODRI_LIBRARY names, else in this module's folder, where an
installed one has it, else in this module's repository, else where the system looks for libraries. What is proved of it, and what is trusted,
include/makhnodri.h tells; this module is not proved, and is tested. While the library works, other Python threads go on; none may write what is lent
meanwhile.
"""

# what is stated of a function of the library, its types and its words, has no body: `_calls` makes it
# mypy: disable-error-code="empty-body"

from __future__ import annotations

import array
import collections
import ctypes
import enum
import functools
import operator
import os
import pathlib
import platform
import sys
import typing

if typing.TYPE_CHECKING:
    from _typeshed import ReadableBuffer, WriteableBuffer
else:
    ReadableBuffer = WriteableBuffer = object  # Python's own names for them are seen by type checkers alone

VERSION = "1.1.2"
VERSION_MAJOR, VERSION_MINOR, VERSION_PATCH = map(int, VERSION.split("."))

# ---- Sizes, as the header has them

COORDINATE_LIMIT = 524287
VERTEX_LIMIT = 512
EDGE_LIMIT = 1024
TRIANGLE_LIMIT = 512
SEAM_LIMIT = 512
PART_LIMIT = 1073741824
TEXT_LIMIT = 32768
REPORT_ROOM = 3072
PAIR_LIMIT = 785920
CONTACT_LIMIT = 262143
CONTACT_UNIT = 1048576
CONTACT_LENGTH = 5
WEIGHT_LIMIT = 1099511627776
POSITIONS_LENGTH = 3072
EDGES_LENGTH = 2048
TRIANGLES_LENGTH = 1536
SEAMS_LENGTH = 1024
BOXES_LENGTH = 12288
LOG_LIMIT = 64
LOG_LENGTH = 128
TOLD_LENGTH = 8
STACK = 196608
REPORT_LENGTH = 65536

# ---- Words, kinds, answers to claims, refusals


class Word(enum.IntEnum):
    """The word of a pair or a piece. Three words are HIT, MISS and DEGENERATE; four are HIT, MISS, TOUCH and APART."""

    HIT = 0
    MISS = 1
    DEGENERATE = 2
    TOUCH = 3
    APART = 4

    def __str__(self) -> str:
        return self.name.lower()


HIT, MISS, DEGENERATE, TOUCH, APART = Word.HIT, Word.MISS, Word.DEGENERATE, Word.TOUCH, Word.APART


class Kind(enum.IntEnum):
    """The kind of a pair: a point and a triangle, or two edges."""

    PT = 0
    EE = 1

    def __str__(self) -> str:
        return self.name.lower()


PT, EE = Kind.PT, Kind.EE

NO, YES = 0, 1

# words asked for, added up: 2 to the power of each word's number
WANT_HITS, WANT_MISSES, WANT_TOUCHES, WANT_APARTS = 1, 2, 8, 16

# what was found of the edges of a mesh
EDGES_WHOLE, SIDE_BARE, EDGE_TWICE = 0, 1, 2

# the file that a refusal of an import is about
NO_FILE, START_FILE, END_FILE = 0, 1, 2

# refusals by the header's names, and what each says
SHAPE, COORDINATE, UNKNOWN_VERTEX, REPEATED_VERTEX, NOT_THERE, SHARED_VERTEX, NO_ROOM, LONG_TEXT = range(1, 9)
BAD_LINE, LATE_RECORD, TOO_MANY, SHORT_BUFFER, BLOCK_LENGTH, FILES_DIFFER, BROKEN_SEAM, BEYOND_OLD_RANGE, STALE_BOX = range(9, 18)
WRONG_ORDER = 18
_REFUSALS = {
    SHAPE: "positions not a multiple of 6 long, edges of 2, triangles of 3, seams of 2, or a count over its size",
    COORDINATE: "a coordinate outside its range",
    UNKNOWN_VERTEX: "a vertex number not below the vertex count",
    REPEATED_VERTEX: "a vertex twice in one edge or triangle, or two that stand for one",
    NOT_THERE: "a vertex, edge, triangle or piece asked for that isn't there",
    SHARED_VERTEX: "the pair asked for shares a vertex",
    NO_ROOM: "more listed pairs than room",
    LONG_TEXT: "text over 32,768 bytes",
    BAD_LINE: "a line not of the form, or a last line without LF",
    LATE_RECORD: "a record after one of a later kind",
    TOO_MANY: "one record more than its size",
    SHORT_BUFFER: "a lent scene buffer that is too short",
    BLOCK_LENGTH: "a block of a series has more or fewer v lines than there are vertices",
    FILES_DIFFER: "two OBJ files differ in vertex count, or in the faces and their order",
    BROKEN_SEAM: "a seam that breaks the rules of seams, or whose two positions differ",
    BEYOND_OLD_RANGE: "a contact asked for in a scene with a coordinate beyond 262,143",
    STALE_BOX: "a stored box that isn't the one worked out",
    WRONG_ORDER: "a lent order that is none, or not a number for each side",
}


class Refused(ValueError):
    """A refusal of the library. `number` is that of the table and `words` what it says; `line` is the line of a text, counted from 1, and `count`
    the room that was needed, each None where the refusal carries no such number; `carried` is the number itself, or 0. `file` is "start" or "end"
    where one of two OBJ files is refused, else None."""

    number: int
    carried: int
    file: typing.Optional[str]
    count: typing.Optional[int]
    line: typing.Optional[int]
    words: str

    def __init__(self, number: int, carried: int = 0, file: typing.Optional[str] = None) -> None:
        self.number, self.carried, self.file = number, carried, file
        self.count = carried if number == 7 else None
        self.line = carried if number != 7 and carried else None
        self.words = refusal_words(number)
        where = f", line {carried}" if self.line else f", {carried} needed" if number == 7 else ""
        super().__init__(f"refused {number}{f', the {file} file' if file else ''}{where}: {self.words}")

    def __reduce__(self):
        return Refused, (self.number, self.carried, self.file)


def refusal(answer: int) -> int:
    """The number of a refusal in a 64-bit answer of the library, or 0."""
    return answer >> 32


def value(answer: int) -> int:
    """The value of an answer; of a refusal, the line or count."""
    return answer & 0xFFFFFFFF


def import_file(answer: int) -> int:
    """The file that a refusal of an import is about: START_FILE, END_FILE or NO_FILE."""
    return value(answer) >> 30


def import_line(answer: int) -> int:
    """The line of that file, counted from 1, or 0."""
    return value(answer) & 0x3FFFFFFF


def refusal_words(number: int) -> str:
    """What a refusal says; "not refused" for 0, "no refusal" for a number that is none."""
    return _REFUSALS.get(number, "no refusal" if number else "not refused")


def word(number: int) -> str:
    """The word of a number, "hit" to "apart"; "no word" for a number that stands for none."""
    return str(Word(number)) if HIT <= number <= APART else "no word"


# ---- Entries of a list


def entry(kind: int, first: int, second: int) -> int:
    """The number of a pair in a list."""
    return (kind << 20) + (first << 10) + second


def entry_kind(number: int) -> Kind:
    """PT below 2^20 and EE from there on, also of a number from 2^21 on, which no pair has."""
    return Kind.PT if number < 1 << 20 else Kind.EE


def entry_first(number: int) -> int:
    """Its first place: the vertex, or the first edge."""
    return number >> 10 & 1023


def entry_second(number: int) -> int:
    """Its second place: the triangle, or the second edge."""
    return number & 1023


def mesh_entry(kind: int, first: int, second: int) -> int:
    """The number of a pair of a mesh in a list: 2^63 for two edges, plus 2^32 times the first place, plus the second."""
    return (kind << 63) + (first << 32) + second


def mesh_entry_kind(number: int) -> Kind:
    """PT below 2^63 and EE from there on."""
    return Kind(number >> 63)


def mesh_entry_first(number: int) -> int:
    """Its first place: the vertex, or the first edge; of an edge that is through a triangle the edge."""
    return number >> 32 & 0x7FFFFFFF


def mesh_entry_second(number: int) -> int:
    """Its second place: the triangle, or the second edge."""
    return number & 0xFFFFFFFF


class Kept(typing.NamedTuple):
    """What is told of rows of which pairs were kept: how many are kept, how many there are, and how many of all of these have each word."""

    count: int  # type: ignore[assignment]  # and not the method that a tuple has
    listed: int
    hits: int
    misses: int
    touches: int
    aparts: int


class Pair(typing.NamedTuple):
    """A pair: its kind and its two places, a vertex and a triangle or two edges, each counted from 0 in its own kind."""

    kind: Kind
    first: int
    second: int

    @classmethod
    def of_entry(cls, number: int) -> Pair:
        """The pair that has this number in a list."""
        return cls(entry_kind(number), entry_first(number), entry_second(number))

    @property
    def entry(self) -> int:
        """The number of the pair in a list."""
        return entry(*self)

    @classmethod
    def of_mesh_entry(cls, number: int) -> Pair:
        """The pair that has this number in the list of a mesh."""
        return cls(mesh_entry_kind(number), mesh_entry_first(number), mesh_entry_second(number))

    def __str__(self) -> str:
        return f"{self.kind} {self.first} {self.second}"


# ---- Contacts


def part(number: int) -> float:
    """A number of 2^20ths as a float, which loses nothing."""
    return number / CONTACT_UNIT


def contact_time(contact: typing.Sequence[int]) -> float:
    """When it touched: 0.0 is the start, 1.0 the end."""
    return part(contact[1])


def contact_share(contact: typing.Sequence[int], place: int) -> float:
    """Where: the share at this place, 0, 1 or 2 of a point and a triangle, 0 or 1 of two edges."""
    return part(contact[2 + place])


class Contact(typing.NamedTuple):
    """The contact of a hit pair in whole 2^20ths: the piece, k, which is the time, and three shares of a point and a triangle or two of two
    edges. `time` and `parts` are the same as floats, which lose nothing. Each is cut and not rounded. `Scene.contact_point` tells the place."""

    piece: int
    k: int
    shares: typing.Tuple[int, ...]

    @classmethod
    def of_numbers(cls, kind: int, numbers: typing.Sequence[int]) -> Contact:
        """From the five numbers that the library writes."""
        return cls(numbers[0], numbers[1], tuple(numbers[2 : 5 if kind == PT else 4]))

    @property
    def time(self) -> float:
        """When it touched: 0.0 is the start, 1.0 the end."""
        return part(self.k)

    @property
    def parts(self) -> typing.Tuple[float, ...]:
        """The shares as parts of 1."""
        return tuple(part(share) for share in self.shares)


# ---- Buffers, lent as they are


class _Buffer(ctypes.Structure):
    """Python's own Py_buffer."""

    _fields_ = [
        ("address", ctypes.c_void_p),
        ("owner", ctypes.c_void_p),
        ("bytes", ctypes.c_ssize_t),
        ("item", ctypes.c_ssize_t),
        ("readonly", ctypes.c_int),
        ("dimensions", ctypes.c_int),
        ("format", ctypes.c_char_p),
        ("shape", ctypes.c_void_p),
        ("strides", ctypes.c_void_p),
        ("suboffsets", ctypes.c_void_p),
        ("internal", ctypes.c_void_p),
    ]


_get_buffer = ctypes.pythonapi.PyObject_GetBuffer
_get_buffer.argtypes, _get_buffer.restype = (ctypes.py_object, ctypes.POINTER(_Buffer), ctypes.c_int), ctypes.c_int
_release = ctypes.pythonapi.PyBuffer_Release
_release.argtypes, _release.restype = (ctypes.POINTER(_Buffer),), None
_WRITTEN, _IN_A_ROW = 0x0001, 0x0004 | 0x0008 | 0x0010 | 0x0020  # PyBUF_WRITABLE; PyBUF_FORMAT, _ND, _STRIDES and _C_CONTIGUOUS

# a type of number: its name, its bytes, the letters that stand for it in a buffer's format, the one for an array
_Type = collections.namedtuple("_Type", "name bytes letters code")
_INT32 = _Type("32-bit signed numbers", 4, b"il", "i")
_UINT16 = _Type("16-bit unsigned numbers", 2, b"H", "H")
_UINT32 = _Type("32-bit unsigned numbers", 4, b"IL", "I")
_UINT8 = _Type("bytes", 1, b"B", "B")
_SIZE = _Type("64-bit unsigned numbers", 8, b"LQN", "Q")
_UINT64 = _Type("64-bit unsigned numbers", 8, b"LQN", "Q")
_ORDERS, _OTHER_ORDER = b"@=<>!", b">!" if sys.byteorder == "little" else b"<"


def _is_of(buffer, numbers):
    """Whether a buffer holds numbers of this type, in this machine's order of bytes."""
    letters = buffer.format or b"B"
    order, letter = (letters[:1], letters[1:]) if letters[:1] in _ORDERS else (b"@", letters)
    return buffer.item == numbers.bytes and len(letter) == 1 and letter in numbers.letters and (order not in _OTHER_ORDER or numbers.bytes == 1)


class _Lent:
    """The buffers of one call: each got from its object, and given back when the call has ended."""

    def __init__(self):
        self.held, self.ranges = [], []

    def __enter__(self):
        return self

    def __exit__(self, *_):
        for buffer in self.held:
            _release(buffer)

    def lend(self, name, given, numbers, written):
        """The address and the length, in numbers, of what is lent under this name; nothing is lent where it is None."""
        if given is None:
            return None, 0
        buffer = _Buffer()
        try:
            _get_buffer(given, buffer, _IN_A_ROW | (_WRITTEN if written else 0))
        except (BufferError, TypeError, ValueError) as error:
            wanted = f"a buffer of {numbers.name} that may be written" if written else f"a buffer of {numbers.name}"
            raise TypeError(f"{name}: {wanted} is wanted, and {type(given).__name__} is none: {error}") from None
        self.held.append(buffer)
        if not _is_of(buffer, numbers):
            here = f"{(buffer.format or b'B').decode()!r} of {buffer.item} bytes"
            raise TypeError(f"{name}: {numbers.name} ({numbers.code!r}) are wanted, and here are {here}")
        if buffer.bytes == 0:
            return None, 0
        if buffer.address % numbers.bytes:
            raise ValueError(f"{name}: the numbers do not stand at a multiple of {numbers.bytes} bytes")
        self.keep_apart(name, buffer.address, buffer.address + buffer.bytes, written)
        return buffer.address, buffer.bytes // numbers.bytes

    def keep_apart(self, name, begin, end, written):
        """C leaves it to the caller that what is written overlaps nothing else; here it is looked at."""
        for other_begin, other_end, other_written in self.ranges:
            if (written or other_written) and begin < other_end and other_begin < end:
                raise ValueError(f"{name}: what is written overlaps another buffer of the same call")
        self.ranges.append((begin, end, written))


# ---- The table of functions

# A kind of argument is what it is in C, whether it may be left out, and how C's arguments are made of what was given.


class _Read:
    """A buffer that is only read: a pointer and a length."""

    c, optional, written = (ctypes.c_void_p, ctypes.c_size_t), False, False

    def __init__(self, name, numbers):
        self.name, self.numbers = name, numbers

    def words(self, given, lent):
        return lent.lend(self.name, given, self.numbers, self.written)


class _Write(_Read):
    """A buffer that is written: a pointer and a length."""

    written = True


class _Fixed:
    """A buffer that is written and has at least so many numbers: a pointer alone."""

    c, written = (ctypes.c_void_p,), True

    def __init__(self, name, numbers, length, optional=False):
        self.name, self.numbers, self.length, self.optional = name, numbers, length, optional

    def words(self, given, lent):
        if given is None and self.optional:
            given = _room(self.numbers, self.length)
        address, length = lent.lend(self.name, given, self.numbers, self.written)
        if length < self.length:
            raise ValueError(f"{self.name}: {self.length} numbers are wanted, and here are {length}")
        return (address,)


class _FixedRead(_Fixed):
    """The same, and it is only read."""

    written = False


class _Place:
    """A place or a piece, a number from 0 on."""

    c: typing.Tuple[typing.Any, ...] = (ctypes.c_size_t,)
    optional = False

    def __init__(self, name):
        self.name = name

    def words(self, given, lent):
        number = operator.index(given)
        if not 0 <= number < 1 << 64:
            raise OverflowError(f"{self.name}: {number} is below 0 or beyond 64 bits")
        return (number,)


class _Lists:
    """A `Scene`: four buffers that are only read."""

    name, optional, stated = "scene", False, "Scene"
    parts: typing.Tuple[_Read, ...] = (_Read("positions", _INT32), _Read("edges", _UINT16), _Read("triangles", _UINT16), _Read("seams", _UINT16))
    c = _Read.c * len(parts)

    def words(self, given, lent):
        if not isinstance(given, Scene):
            raise TypeError(f"scene: a Scene is wanted, and here is {type(given).__name__}")
        return [word for part in self.parts for word in part.words(getattr(given, part.name), lent)]


class _MovedLists(_Lists):
    """A `Scene` whose positions are written."""

    parts = (_Write("positions", _INT32), *_Lists.parts[1:])


class _MeshLists(_Lists):
    """A `Mesh`: four buffers that are only read."""

    name, stated = "mesh", "Mesh"
    parts: typing.Tuple[_Read, ...] = (_Read("positions", _INT32), _Read("edges", _UINT32), _Read("triangles", _UINT32), _Read("seams", _UINT32))

    def words(self, given, lent):
        if not isinstance(given, Mesh):
            raise TypeError(f"mesh: a Mesh is wanted, and here is {type(given).__name__}")
        return [word for part in self.parts for word in part.words(getattr(given, part.name), lent)]


class _OrderedLists(_MeshLists):
    """A `Mesh` with its orders."""

    parts = (*_MeshLists.parts, _Read("edge_order", _UINT32), _Read("triangle_order", _UINT32))
    c = _Read.c * len(parts)


class _InScratch(_Lists):
    """The lists of a `Scratch`, or some of them: they are written."""

    name, stated = "scratch", "Scratch"

    def __init__(self, *parts):
        self.parts, self.c = tuple(_Write(name, numbers) for name, numbers in parts), _Read.c * len(parts)

    def words(self, given, lent):
        if not isinstance(given, Scratch):
            raise TypeError(f"scratch: a Scratch is wanted, and here is {type(given).__name__}")
        return [word for part in self.parts for word in part.words(getattr(given, part.name), lent)]


class _Number(_Place):
    """A number of 32 bits."""

    c = (ctypes.c_uint32,)

    def words(self, given, lent):
        number = operator.index(given)
        if not 0 <= number < 1 << 32:
            raise OverflowError(f"{self.name}: {number} is below 0 or beyond 32 bits")
        return (number,)


# what a call gives where it does not refuse
def _NOTHING(_):
    return None


# the same, and what its refusal carries has a file in its two upper bits
def _IMPORTED(_):
    return None


_COUNT, _WORD = int, Word

_SCENE = _Lists()
_TESTS = _Fixed("tests", _SIZE, 1, optional=True)
_LIST, _OWN_LIST, _WORDS = _Write("list", _UINT32), _Read("list", _UINT32), _Write("words", _UINT8)
_CONTACT, _CONTACTS = _Fixed("contact", _UINT32, CONTACT_LENGTH), _Write("contacts", _UINT32)
_POINT, _EDGES, _PIECE = (_Place("vertex"), _Place("triangle")), (_Place("first"), _Place("second")), _Place("piece")
_BOXES, _STORED = _Write("boxes", _INT32), _Read("boxes", _INT32)
_THREE = (_Write("positions", _INT32), _Write("edges", _UINT16), _Write("triangles", _UINT16))

def _open_library():
    # below 1.0.0 the middle number moves where something that a caller relies on changed, from then on the first
    numbers = VERSION_MAJOR if VERSION_MAJOR > 0 else f"{VERSION_MAJOR}.{VERSION_MINOR}"
    name, processor = f"libmakhnodri.so.{numbers}", platform.machine()
    here = pathlib.Path(__file__).resolve().parent
    repository = here.parents[2] if len(here.parents) > 2 else here
    named = os.environ.get("MAKHNODRI_LIBRARY")
    folders = [pathlib.Path(named)] if named else [here, repository / "target" / "library" / processor]
    for folder in folders:
        if (folder / name).exists():
            return ctypes.CDLL(str((folder / name).resolve()))
    try:
        return ctypes.CDLL(str(folders[0] / name) if named else name)
    except OSError as error:
        raise ImportError(
            f"{error}. `./makhnodri library` in the repository proves and makes it, or `./makhnodri install PREFIX`, which puts it into PREFIX/lib; "
            "MAKHNODRI_LIBRARY names its folder."
        ) from None


_library = _open_library()


# A row a function of the library: its name there without `makhnodri_`, what it gives, its arguments in the header's order. Each is stated below, by its
# name without `_slices`, with the types of what is lent; a test holds the rows to the header, and what is stated to the rows.
_FUNCTIONS = []
_functions = {}
_Stated = typing.TypeVar("_Stated", bound=typing.Callable[..., object])


def _calls(symbol: str, given: typing.Any, *arguments: typing.Any) -> typing.Callable[[_Stated], _Stated]:
    """Makes a row, and the function that is stated call it."""
    _FUNCTIONS.append((symbol, given, *arguments))
    function = _functions[symbol] = getattr(_library, f"makhnodri_{symbol}")
    function.argtypes, function.restype = [c for argument in arguments for c in argument.c], ctypes.c_uint64
    wanted = len(arguments) - sum(argument.optional for argument in arguments)

    def called(lent):
        with _Lent() as held:
            words = [word for argument, one in zip(arguments, lent) for word in argument.words(one, held)]
            return _functions[symbol](*words)

    def made(stated):
        @functools.wraps(stated)
        def call(*lent):
            if not wanted <= len(lent) <= len(arguments):
                raise TypeError(f"{stated.__name__} takes {', '.join(argument.name for argument in arguments)}; {len(lent)} were given")
            answer = called(lent + (None,) * (len(arguments) - len(lent)))
            if answer >> 32:
                raise _refused(answer, given)
            return given(answer)

        return call

    return made


def _calls_mesh(symbol: str, given: typing.Any, *arguments: typing.Any) -> typing.Callable[[_Stated], _Stated]:
    """The same over a mesh: the number is the refusal's, and what is told stands in the last array, which is made where none is lent."""
    _calls(symbol, given, *arguments)
    function, last = _functions[symbol], arguments[-1]
    function.restype = ctypes.c_uint32
    wanted = len(arguments) - last.optional
    listing = symbol.startswith(("list_", "settle_", "contact_"))

    def made(stated):
        @functools.wraps(stated)
        def call(*lent):
            if not wanted <= len(lent) <= len(arguments):
                raise TypeError(f"{stated.__name__} takes {', '.join(argument.name for argument in arguments)}; {len(lent)} were given")
            if last.optional and (len(lent) == wanted or lent[-1] is None):
                lent = (*lent[:wanted], _room(_UINT64, last.length))
            with _Lent() as held:
                for scratch in (one for one in lent if isinstance(one, Scratch) and isinstance(lent[0], Mesh)):
                    scratch.fit(lent[0], next((len(one) for argument, one in zip(arguments, lent) if listing and argument.name == "list"), 0))
                number = function(*(word for argument, one in zip(arguments, lent) for word in argument.words(one, held)))
            told = memoryview(lent[-1]).cast("B").cast("Q") if last.optional else ()
            if number:
                raise Refused(number, told[0] if number == NO_ROOM else 0)
            return given(told)

        return call

    return made


def _TOLD_COUNT(told):
    return told[0]


def _TOLD_EDGES(told):
    return told[0], told[1]


def _TOLD_KEPT(told):
    return Kept(*told[:6])


def _refused(answer, given):
    if given is _IMPORTED:
        return Refused(refusal(answer), import_line(answer), (None, "start", "end")[import_file(answer)])
    return Refused(refusal(answer), value(answer))


# ---- Functions of a scene


@_calls("check_scene_slices", _NOTHING, _SCENE)
def check_scene(scene: Scene, /) -> None:
    """Whether this scene may be used: Refused with 1, 2, 3, 15 or 4 where it may not. Every call with a scene looks first."""


@_calls("count_pairs_slices", _COUNT, _SCENE, _TESTS)
def count_pairs(scene: Scene, tests: typing.Optional[WriteableBuffer] = None, /) -> int:
    """How many pairs are listed: those whose swept boxes meet, equal ends included, and that share no vertex. Into tests[0] goes how many boxes the
    pt part tests."""


@_calls("list_pairs_slices", _COUNT, _SCENE, _LIST, _TESTS)
def list_pairs(scene: Scene, list: WriteableBuffer, tests: typing.Optional[WriteableBuffer] = None, /) -> int:
    """Makes the list in front of `list`, one number an entry (`Pair.of_entry` takes it apart), and gives the count: pt by vertex then triangle, then
    ee by first then second edge. Refused with 7 and the count needed where there is no room."""


@_calls("settle_scene_slices", _COUNT, _SCENE, _LIST, _WORDS)
def settle_scene(scene: Scene, list: WriteableBuffer, words: WriteableBuffer, /) -> int:
    """Makes the list and settles each pair of it in four words: words[i] is the word of entry i. Gives the count, or is Refused with 7."""


@_calls("settle_list_slices", _COUNT, _SCENE, _OWN_LIST, _WORDS)
def settle_list(scene: Scene, list: ReadableBuffer, words: WriteableBuffer, /) -> int:
    """Settles the pairs of a list of one's own, listed or not, and checks the scene once. Refused with 5 or 6 of the first entry at fault, with its
    number, counted from 1."""


@_calls("contact_list_slices", _COUNT, _SCENE, _OWN_LIST, _WORDS, _CONTACTS)
def contact_list(scene: Scene, list: ReadableBuffer, words: WriteableBuffer, contacts: WriteableBuffer, /) -> int:
    """As `settle_list`, and beside the words the contact of each hit pair: that of entry i begins at contacts[5 * i]."""


@_calls("contact_scene_slices", _COUNT, _SCENE, _LIST, _WORDS, _CONTACTS)
def contact_scene(scene: Scene, list: WriteableBuffer, words: WriteableBuffer, contacts: WriteableBuffer, /) -> int:
    """As `settle_scene`, and beside list and words the contact of each hit pair: that of entry i begins at contacts[5 * i]. Refused with 16 where a
    coordinate is beyond CONTACT_LIMIT."""


@_calls("saved_length_slices", _COUNT, _SCENE)
def saved_length(scene: Scene, /) -> int:
    """How many bytes the scene has as text."""


@_calls("save_scene_slices", _COUNT, _SCENE, _Write("text", _UINT8))
def save_scene(scene: Scene, text: WriteableBuffer, /) -> int:
    """Writes the scene as text (docs/FORMAT.md) in front of `text`, and gives its length."""


@_calls("pierced_at_start_slices", bool, _SCENE, _Place("edge"), _Place("triangle"))
def pierced_at_start(scene: Scene, edge: int, triangle: int, /) -> bool:
    """Whether an edge is through a triangle at the start: nonnegative weights give them one place. Refused with 5 or 6 too."""


@_calls("pierced_at_end_slices", bool, _SCENE, _Place("edge"), _Place("triangle"))
def pierced_at_end(scene: Scene, edge: int, triangle: int, /) -> bool:
    """The same at the end."""


@_calls("check_claims_slices", _COUNT, _SCENE, _Read("claims", _UINT8), _Write("answers", _UINT8))
def check_claims(scene: Scene, claims: ReadableBuffer, answers: WriteableBuffer, /) -> int:
    """Answers each claim of a text (docs/FORMAT.md) by its weights alone, YES or NO in front of `answers`, and gives their count."""


# ---- Functions of a pair or a piece, listed or not: Refused with 5 or 6 too


@_calls("judge_pt_slices", _WORD, _SCENE, *_POINT)
def judge_pt(scene: Scene, vertex: int, triangle: int, /) -> Word:
    """A point and a triangle, in three words: what is singular stays open."""


@_calls("judge_ee_slices", _WORD, _SCENE, *_EDGES)
def judge_ee(scene: Scene, first: int, second: int, /) -> Word:
    """Two edges, in three words; they may be asked for in either order."""


@_calls("judge_pt_piece_slices", _WORD, _SCENE, *_POINT, _PIECE)
def judge_pt_piece(scene: Scene, vertex: int, triangle: int, piece: int, /) -> Word:
    """Piece 0, 1 or 2 of a point and a triangle, in three words."""


@_calls("judge_ee_piece_slices", _WORD, _SCENE, *_EDGES, _PIECE)
def judge_ee_piece(scene: Scene, first: int, second: int, piece: int, /) -> Word:
    """Piece 0, 1, 2 or 3 of two edges, in three words."""


@_calls("settle_pt_slices", _WORD, _SCENE, *_POINT)
def settle_pt(scene: Scene, vertex: int, triangle: int, /) -> Word:
    """A point and a triangle, in four words: what is singular is decided too."""


@_calls("settle_ee_slices", _WORD, _SCENE, *_EDGES)
def settle_ee(scene: Scene, first: int, second: int, /) -> Word:
    """Two edges, in four words."""


@_calls("settle_pt_piece_slices", _WORD, _SCENE, *_POINT, _PIECE)
def settle_pt_piece(scene: Scene, vertex: int, triangle: int, piece: int, /) -> Word:
    """Piece 0, 1 or 2 of a point and a triangle, in four words."""


@_calls("settle_ee_piece_slices", _WORD, _SCENE, *_EDGES, _PIECE)
def settle_ee_piece(scene: Scene, first: int, second: int, piece: int, /) -> Word:
    """Piece 0, 1, 2 or 3 of two edges, in four words."""


@_calls("contact_pt_slices", _WORD, _SCENE, *_POINT, _CONTACT)
def contact_pt(scene: Scene, vertex: int, triangle: int, contact: WriteableBuffer, /) -> Word:
    """As `settle_pt`; on a hit piece, k and three shares are written into `contact`. Refused with 16 where a coordinate is beyond CONTACT_LIMIT."""


@_calls("contact_ee_slices", _WORD, _SCENE, *_EDGES, _CONTACT)
def contact_ee(scene: Scene, first: int, second: int, contact: WriteableBuffer, /) -> Word:
    """As `settle_ee`; on a hit piece, k, two shares and 0 are written into `contact`."""


# ---- Functions of texts


@_calls("read_scene_slices", _NOTHING, _Read("text", _UINT8), *_THREE, _Write("seams", _UINT16), _Fixed("counts", _SIZE, 4))
def read_scene(
    text: ReadableBuffer,
    positions: WriteableBuffer,
    edges: WriteableBuffer,
    triangles: WriteableBuffer,
    seams: WriteableBuffer,
    counts: WriteableBuffer,
    /,
) -> None:
    """Reads a scene text (docs/FORMAT.md) into buffers of POSITIONS_LENGTH, EDGES_LENGTH, TRIANGLES_LENGTH and SEAMS_LENGTH numbers at least. The
    scene then stands in front of them, and its counts in `counts`; `scene_in` takes it out. `Scene.read` does all of it."""


@_calls(
    "import_scene_slices", _IMPORTED, _Read("start", _UINT8), _Read("end", _UINT8), *_THREE, _Write("seams", _UINT16), _BOXES, _Fixed("counts", _SIZE, 4)
)
def import_scene(
    start: ReadableBuffer,
    end: ReadableBuffer,
    positions: WriteableBuffer,
    edges: WriteableBuffer,
    triangles: WriteableBuffer,
    seams: WriteableBuffer,
    boxes: WriteableBuffer,
    counts: WriteableBuffer,
    /,
) -> None:
    """Brings two OBJ files into buffers as `read_scene` does, with the boxes of its parts. `Scene.import_obj` does all of it."""


@_calls(
    "tell_series_slices",
    _COUNT,
    _Read("text", _UINT8),
    *_THREE,
    _Write("seams", _UINT16),
    _BOXES,
    _LIST,
    _Fixed("counts", _SIZE, 4),
    _Fixed("log", _UINT32, LOG_LENGTH),
    _Fixed("told", _UINT64, TOLD_LENGTH),
)
def tell_series(
    text: ReadableBuffer,
    positions: WriteableBuffer,
    edges: WriteableBuffer,
    triangles: WriteableBuffer,
    seams: WriteableBuffer,
    boxes: WriteableBuffer,
    list: WriteableBuffer,
    counts: WriteableBuffer,
    log: WriteableBuffer,
    told: WriteableBuffer,
    /,
) -> int:
    """Runs a series (docs/FORMAT.md) in buffers that are lent, and gives the count of the last step's list. `series` does all of it."""


@_calls("write_report", _COUNT, _Read("text", _UINT8), _Fixed("out", _UINT8, REPORT_LENGTH))
def write_report(text: ReadableBuffer, out: WriteableBuffer, /) -> int:
    """Writes the report of a scene text in front of `out`, which has REPORT_LENGTH bytes, and gives its length. `report` does all of it."""


@_calls("turn_scene", _NOTHING, *_THREE)
def turn_scene(positions: WriteableBuffer, edges: WriteableBuffer, triangles: WriteableBuffer, /) -> None:
    """Turns a scene without seams round where it stands, so that it is played backwards: start and end are swapped, and the vertices numbered from
    last to first."""


# ---- Functions of a scene that keeps its boxes: Refused with 12 where there are fewer than BOXES_LENGTH numbers for them


@_calls("fill_boxes_slices", _NOTHING, _SCENE, _BOXES)
def fill_boxes(scene: Scene, boxes: WriteableBuffer, /) -> None:
    """Works out the boxes of all vertices, edges and triangles, six numbers each, the three lows first."""


@_calls("move_vertex_slices", _NOTHING, _MovedLists(), _BOXES, _Place("vertex"), _FixedRead("coordinates", _INT32, 6))
def move_vertex(scene: Scene, boxes: WriteableBuffer, vertex: int, coordinates: ReadableBuffer, /) -> None:
    """Sets one vertex's six coordinates, and works out the boxes of the parts that have it. Refused with 5, 2 or 15."""


@_calls("count_stored_slices", _COUNT, _SCENE, _STORED, _TESTS)
def count_stored(scene: Scene, boxes: ReadableBuffer, tests: typing.Optional[WriteableBuffer] = None, /) -> int:
    """As `count_pairs`, by the stored boxes; Refused with 17 where one is not the one worked out."""


@_calls("list_stored_slices", _COUNT, _SCENE, _STORED, _LIST, _TESTS)
def list_stored(scene: Scene, boxes: ReadableBuffer, list: WriteableBuffer, tests: typing.Optional[WriteableBuffer] = None, /) -> int:
    """As `list_pairs`, by the stored boxes; Refused with 17 where one is not the one worked out."""


@_calls("settle_stored_slices", _COUNT, _SCENE, _STORED, _LIST, _WORDS)
def settle_stored(scene: Scene, boxes: ReadableBuffer, list: WriteableBuffer, words: WriteableBuffer, /) -> int:
    """As `settle_scene`, by the stored boxes; Refused with 17 where one is not the one worked out."""


@_calls("read_boxed_slices", _NOTHING, _Read("text", _UINT8), *_THREE, _Write("seams", _UINT16), _BOXES, _Fixed("counts", _SIZE, 4))
def read_boxed(
    text: ReadableBuffer,
    positions: WriteableBuffer,
    edges: WriteableBuffer,
    triangles: WriteableBuffer,
    seams: WriteableBuffer,
    boxes: WriteableBuffer,
    counts: WriteableBuffer,
    /,
) -> None:
    """As `read_scene`, and the boxes of the scene's parts into `boxes`. `BoxedScene.read` does all of it."""


_MESH, _ROWS, _TABLE = _MeshLists(), _OrderedLists(), _InScratch(("table", _UINT32))
_TABLE_AND_PLACES = _InScratch(("table", _UINT32), ("places", _UINT32))
_SCRATCH = _InScratch(("table", _UINT32), ("places", _UINT32), ("boxes", _INT32))
_STRETCH, _WANTED = (_Place("first"), _Place("end")), _Number("wanted")

# ---- Functions of a mesh of any size: a stretch of rows at a time. The scratch is made as long as the mesh needs it, so that 12 is not met


@_calls_mesh("check_mesh_slices", _NOTHING, _MESH, _TABLE)
def check_mesh(mesh: Mesh, scratch: Scratch, /) -> None:
    """Whether this mesh may be used: Refused with 1, 2, 3, 15 or 4 where it may not."""


@_calls_mesh(
    "check_edges_slices",
    _TOLD_EDGES,
    _MESH,
    _Read("sides", _UINT32),
    _Read("order", _UINT32),
    _TABLE_AND_PLACES,
    _Fixed("told", _UINT64, 2, optional=True),
)
def check_edges(
    mesh: Mesh, sides: ReadableBuffer, order: ReadableBuffer, scratch: Scratch, told: typing.Optional[WriteableBuffer] = None, /
) -> typing.Tuple[int, int]:
    """Whether edges that were made from the triangles are whole: EDGES_WHOLE and 0, SIDE_BARE and the first side that has not its edge, or EDGE_TWICE
    and the number of the order behind which the ends do not rise. `sides` has the edge of each side, three to a triangle, and `order` the edges by
    their ends, the lower end first; Refused with 18 where one is of another length, or the order is none."""


@_calls_mesh("count_rows_slices", _TOLD_COUNT, _ROWS, _SCRATCH, *_STRETCH, _Fixed("told", _UINT64, 1, optional=True))
def count_rows(
    mesh: Mesh, scratch: Scratch, first: int, end: int, told: typing.Optional[WriteableBuffer] = None, /
) -> int:
    """How many pairs the rows from `first` up to and without `end` have."""


@_calls_mesh("count_near_rows_slices", _TOLD_COUNT, _ROWS, _SCRATCH, *_STRETCH, _Fixed("told", _UINT64, 1, optional=True))
def count_near_rows(
    mesh: Mesh, scratch: Scratch, first: int, end: int, told: typing.Optional[WriteableBuffer] = None, /
) -> int:
    """How many pairs the rows from `first` up to and without `end` have, of the near ones."""


@_calls_mesh("list_rows_slices", _TOLD_COUNT, _ROWS, _SCRATCH, *_STRETCH, _Write("list", _UINT64), _Fixed("told", _UINT64, 1, optional=True))
def list_rows(
    mesh: Mesh, scratch: Scratch, first: int, end: int, list: WriteableBuffer, told: typing.Optional[WriteableBuffer] = None, /
) -> int:
    """Their entries in front of `list`, in rising order; gives the count, or is Refused with 7."""


@_calls_mesh("list_near_rows_slices", _TOLD_COUNT, _ROWS, _SCRATCH, *_STRETCH, _Write("list", _UINT64), _Fixed("told", _UINT64, 1, optional=True))
def list_near_rows(
    mesh: Mesh, scratch: Scratch, first: int, end: int, list: WriteableBuffer, told: typing.Optional[WriteableBuffer] = None, /
) -> int:
    """Their entries in front of `list`, in rising order, of the near ones; gives the count, or is Refused with 7."""


@_calls_mesh("settle_rows_slices", _TOLD_COUNT, _ROWS, _SCRATCH, *_STRETCH, _Write("list", _UINT64), _WORDS, _Fixed("told", _UINT64, 1, optional=True))
def settle_rows(
    mesh: Mesh, scratch: Scratch, first: int, end: int, list: WriteableBuffer, words: WriteableBuffer, told: typing.Optional[WriteableBuffer] = None, /
) -> int:
    """Their entries and the word of each, words[i] that of entry i."""


@_calls_mesh("settle_near_rows_slices", _TOLD_COUNT, _ROWS, _SCRATCH, *_STRETCH, _Write("list", _UINT64), _WORDS, _Fixed("told", _UINT64, 1, optional=True))
def settle_near_rows(
    mesh: Mesh, scratch: Scratch, first: int, end: int, list: WriteableBuffer, words: WriteableBuffer, told: typing.Optional[WriteableBuffer] = None, /
) -> int:
    """Their entries and the word of each, words[i] that of entry i, of the near ones."""


@_calls_mesh("contact_rows_slices", _TOLD_COUNT, _ROWS, _SCRATCH, *_STRETCH, _Write("list", _UINT64), _WORDS, _CONTACTS, _Fixed("told", _UINT64, 1, optional=True))
def contact_rows(
    mesh: Mesh, scratch: Scratch, first: int, end: int, list: WriteableBuffer, words: WriteableBuffer, contacts: WriteableBuffer, told: typing.Optional[WriteableBuffer] = None, /
) -> int:
    """And the contact of each hit: that of entry i begins at contacts[5 * i]."""


@_calls_mesh("contact_near_rows_slices", _TOLD_COUNT, _ROWS, _SCRATCH, *_STRETCH, _Write("list", _UINT64), _WORDS, _CONTACTS, _Fixed("told", _UINT64, 1, optional=True))
def contact_near_rows(
    mesh: Mesh, scratch: Scratch, first: int, end: int, list: WriteableBuffer, words: WriteableBuffer, contacts: WriteableBuffer, told: typing.Optional[WriteableBuffer] = None, /
) -> int:
    """And the contact of each hit: that of entry i begins at contacts[5 * i], of the near ones."""


@_calls_mesh(
    "keep_rows_slices", _TOLD_KEPT, _ROWS, _SCRATCH, *_STRETCH, _WANTED, _Write("list", _UINT64), _WORDS, _Fixed("told", _UINT64, 6, optional=True)
)
def keep_rows(
    mesh: Mesh,
    scratch: Scratch,
    first: int,
    end: int,
    wanted: int,
    list: WriteableBuffer,
    words: WriteableBuffer,
    told: typing.Optional[WriteableBuffer] = None,
    /,
) -> Kept:
    """Of the pairs of the rows those whose words are asked for, WANT_HITS and its like added up: their entries in front of `list` and their words in
    front of `words`. The totals are of all pairs; Refused with 7 and the count of those that are kept where there is no room for them."""


@_calls_mesh(
    "keep_near_rows_slices", _TOLD_KEPT, _ROWS, _SCRATCH, *_STRETCH, _WANTED, _Write("list", _UINT64), _WORDS, _Fixed("told", _UINT64, 6, optional=True)
)
def keep_near_rows(
    mesh: Mesh,
    scratch: Scratch,
    first: int,
    end: int,
    wanted: int,
    list: WriteableBuffer,
    words: WriteableBuffer,
    told: typing.Optional[WriteableBuffer] = None,
    /,
) -> Kept:
    """As `keep_rows`, of the near ones."""


@_calls_mesh(
    "keep_contacts_slices",
    _TOLD_KEPT,
    _ROWS,
    _SCRATCH,
    *_STRETCH,
    _WANTED,
    _Write("list", _UINT64),
    _WORDS,
    _CONTACTS,
    _Fixed("told", _UINT64, 6, optional=True),
)
def keep_contacts(
    mesh: Mesh,
    scratch: Scratch,
    first: int,
    end: int,
    wanted: int,
    list: WriteableBuffer,
    words: WriteableBuffer,
    contacts: WriteableBuffer,
    told: typing.Optional[WriteableBuffer] = None,
    /,
) -> Kept:
    """As `keep_rows`, and the contact of each hit that is kept: that of entry i begins at contacts[5 * i]. Refused with 16 before 7, whichever words are
    asked for."""


@_calls_mesh(
    "keep_near_contacts_slices",
    _TOLD_KEPT,
    _ROWS,
    _SCRATCH,
    *_STRETCH,
    _WANTED,
    _Write("list", _UINT64),
    _WORDS,
    _CONTACTS,
    _Fixed("told", _UINT64, 6, optional=True),
)
def keep_near_contacts(
    mesh: Mesh,
    scratch: Scratch,
    first: int,
    end: int,
    wanted: int,
    list: WriteableBuffer,
    words: WriteableBuffer,
    contacts: WriteableBuffer,
    told: typing.Optional[WriteableBuffer] = None,
    /,
) -> Kept:
    """As `keep_contacts`, of the near ones."""


@_calls_mesh("pierced_at_start_rows_slices", _TOLD_COUNT, _ROWS, _SCRATCH, *_STRETCH, _Write("list", _UINT64), _Fixed("told", _UINT64, 1, optional=True))
def pierced_at_start_rows(
    mesh: Mesh, scratch: Scratch, first: int, end: int, list: WriteableBuffer, told: typing.Optional[WriteableBuffer] = None, /
) -> int:
    """The edges from `first` up to and without `end` that are through a triangle at the start, an entry for each such edge and triangle."""


@_calls_mesh("pierced_at_end_rows_slices", _TOLD_COUNT, _ROWS, _SCRATCH, *_STRETCH, _Write("list", _UINT64), _Fixed("told", _UINT64, 1, optional=True))
def pierced_at_end_rows(
    mesh: Mesh, scratch: Scratch, first: int, end: int, list: WriteableBuffer, told: typing.Optional[WriteableBuffer] = None, /
) -> int:
    """The edges from `first` up to and without `end` that are through a triangle at the end, an entry for each such edge and triangle."""


# ---- A scene


def _room(numbers, count):
    return array.array(numbers.code, bytes(numbers.bytes)) * count


def _in_a_row(given, numbers):
    """A list or a tuple of Python's has no buffer, and is copied into one that has."""
    return array.array(numbers.code, given) if isinstance(given, (list, tuple)) else given


def _copied(given, numbers):
    """An array of one's own with the numbers of a buffer."""
    with _Lent() as held:
        address, length = held.lend("scene", given, numbers, False)
        return array.array(numbers.code, ctypes.string_at(address, length * numbers.bytes) if length else b"")


def _looked_at(held, part, scene):
    """The numbers of one of a scene's lists where they stand, as long as it is held."""
    address, length = held.lend(part.name, getattr(scene, part.name), part.numbers, False)
    return (_SEEN_AS[part.numbers.code] * length).from_address(address) if length else ()


_SEEN_AS = {_INT32.code: ctypes.c_int32, _UINT16.code: ctypes.c_uint16}


_Numbers = typing.Union[ReadableBuffer, typing.Sequence[int], None]


class Scene:
    """The four lists of a scene, each a buffer that is lent as it is, or None where there is none of its kind: positions, six 32-bit signed numbers
    a vertex ('i'); edges, two 16-bit unsigned numbers each ('H'); triangles, three; seams, two. A list or a tuple of Python's is copied into an
    array of that type. Nothing is checked before a call, and every call checks all of it."""

    __slots__ = ("positions", "edges", "triangles", "seams")
    positions: typing.Optional[ReadableBuffer]
    edges: typing.Optional[ReadableBuffer]
    triangles: typing.Optional[ReadableBuffer]
    seams: typing.Optional[ReadableBuffer]

    def __init__(self, positions: _Numbers = None, edges: _Numbers = None, triangles: _Numbers = None, seams: _Numbers = None) -> None:
        for part, given in zip(_Lists.parts, (positions, edges, triangles, seams)):
            setattr(self, part.name, _in_a_row(given, part.numbers))

    @staticmethod
    def read(text: ReadableBuffer) -> Scene:
        """The scene of a text (docs/FORMAT.md), a buffer of bytes."""
        buffers, counts = _rooms()
        positions, edges, triangles, seams = buffers
        read_scene(text, positions, edges, triangles, seams, counts)
        return scene_in(buffers, counts)

    @staticmethod
    def import_obj(start: ReadableBuffer, end: ReadableBuffer) -> Scene:
        """The scene of two OBJ files (docs/FORMAT.md), one for the start and one for the end, buffers of bytes; in hundredths of their unit. A Refused
        tells the file and its line."""
        buffers, counts = _rooms()
        positions, edges, triangles, seams = buffers
        import_scene(start, end, positions, edges, triangles, seams, _room(_INT32, BOXES_LENGTH), counts)
        return scene_in(buffers, counts)

    def listed(self) -> typing.List[Pair]:
        """The listed pairs, in order."""
        entries = _room(_UINT32, count_pairs(self))
        list_pairs(self, entries)
        return [Pair.of_entry(number) for number in entries]

    def settled(self) -> typing.List[typing.Tuple[Pair, Word]]:
        """The listed pairs, in order, each with its word of four."""
        count = count_pairs(self)
        entries, words = _room(_UINT32, count), _room(_UINT8, count)
        settle_scene(self, entries, words)
        return [(Pair.of_entry(number), Word(word)) for number, word in zip(entries, words)]

    def contacts(self) -> typing.List[typing.Tuple[Pair, Word, typing.Optional[Contact]]]:
        """The listed pairs, in order, each with its word and, where that is a hit, its contact, else None."""
        count = count_pairs(self)
        entries, words, numbers = _room(_UINT32, count), _room(_UINT8, count), _room(_UINT32, CONTACT_LENGTH * count)
        contact_scene(self, entries, words, numbers)
        rows = (numbers[at : at + CONTACT_LENGTH] for at in range(0, len(numbers), CONTACT_LENGTH))
        pairs = (Pair.of_entry(number) for number in entries)
        return [(pair, Word(word), Contact.of_numbers(pair.kind, row) if word == HIT else None) for pair, word, row in zip(pairs, words, rows)]

    def settle_pairs(self, pairs: typing.Iterable[Pair]) -> typing.List[Word]:
        """The words of pairs that one found oneself, in their order: the scene is checked once. A Refused with number 5 or 6 carries the number of the
        first pair at fault, counted from 1."""
        entries = array.array(_UINT32.code, (pair.entry for pair in pairs))
        words = _room(_UINT8, len(entries))
        settle_list(self, entries, words)
        return [Word(word) for word in words]

    def contact(self, kind: int, first: int, second: int) -> typing.Tuple[Word, typing.Optional[Contact]]:
        """The word of a pair, and its contact where that is a hit, else None."""
        numbers = _room(_UINT32, CONTACT_LENGTH)
        word = (contact_pt if kind == PT else contact_ee)(self, first, second, numbers)
        return word, Contact.of_numbers(kind, numbers) if word == HIT else None

    def contact_point(self, pair: Pair, contact: typing.Optional[Contact]) -> typing.Optional[typing.Tuple[float, float, float]]:
        """Where the pair touched, in the mesh's units, from the numbers of its contact; None where there is no contact, or it is about parts that are
        not there.

        Of a point and a triangle it is where the point stands at the time k; of two edges the place of the first edge, the one with the lower place,
        that its share and k have in the piece. It is worked out without any rounding, and yet not the exact place, since time and share were cut: on
        each axis it is off by less than a 2^20th of the way that the point makes on that axis, which is under half a unit; of two edges by less than a
        2^20th of a way and a length together, which is under one unit."""
        with _Lent() as held:
            positions, edges = (_looked_at(held, part, self) for part in _Lists.parts[:2])
            weights = _weights(self, edges, pair, contact) if contact else ()
            if not weights or any(not 0 <= 6 * vertex <= len(positions) - 6 for vertex, *_ in weights):
                return None
            x, y, z = (sum(start * positions[6 * v + axis] + end * positions[6 * v + 3 + axis] for v, start, end in weights) for axis in range(3))
            return part(x), part(y), part(z)

    def claims(self, text: ReadableBuffer) -> typing.List[bool]:
        """Whether the weights of each claim of a text (docs/FORMAT.md) bear it out, in order."""
        answers = bytearray(memoryview(text).nbytes)
        return [answer == YES for answer in answers[: check_claims(self, text, answers)]]

    def saved(self) -> bytes:
        """The scene as text (docs/FORMAT.md), in bytes; read back it is the same scene."""
        text = bytearray(saved_length(self))
        save_scene(self, text)
        return bytes(text)

    def __repr__(self) -> str:
        sizes = ((part.name, getattr(self, part.name)) for part in _Lists.parts)
        return f"<Scene {', '.join(f'{name}: {0 if given is None else memoryview(given).nbytes} bytes' for name, given in sizes)}>"


class Mesh:
    """A mesh of any size: the lists of a `Scene` with 32-bit unsigned vertex numbers ('I'), and an order of its edges and one of its triangles, hints that
    change no answer, or None. Each is a buffer that is lent as it is; a list or a tuple of Python's is copied into an array. Its list is asked for by
    rows, a stretch at a time: row v is vertex v's, row vertices + e is edge e's. Threads take stretches, each with a `Scratch` of its own; what
    neighbouring stretches list, joined, is the list of both. Rows of vertices look at no edge and rows of edges at no triangle: once a mesh is
    accepted, one that is lent for rows of one kind may have an empty list of the other, and its calls begin sooner."""

    __slots__ = ("positions", "edges", "triangles", "seams", "edge_order", "triangle_order")
    positions: typing.Optional[ReadableBuffer]
    edges: typing.Optional[ReadableBuffer]
    triangles: typing.Optional[ReadableBuffer]
    seams: typing.Optional[ReadableBuffer]
    edge_order: typing.Optional[ReadableBuffer]
    triangle_order: typing.Optional[ReadableBuffer]

    def __init__(
        self,
        positions: _Numbers = None,
        edges: _Numbers = None,
        triangles: _Numbers = None,
        seams: _Numbers = None,
        edge_order: _Numbers = None,
        triangle_order: _Numbers = None,
    ) -> None:
        for part, given in zip(_OrderedLists.parts, (positions, edges, triangles, seams, edge_order, triangle_order)):
            setattr(self, part.name, _in_a_row(given, part.numbers))

    def _length(self, name: str) -> int:
        given = getattr(self, name)
        return 0 if given is None else memoryview(given).nbytes // 4

    @property
    def rows(self) -> int:
        """How many rows it has: one for each vertex and one for each edge."""
        return self._length("positions") // 6 + self._length("edges") // 2


def row_count(mesh: Mesh) -> int:
    """How many rows a mesh has."""
    return mesh.rows


def table_room(mesh: Mesh) -> int:
    """How many numbers the table of a scratch needs."""
    return mesh._length("positions") // 6 if mesh._length("seams") else 0


def place_room(mesh: Mesh) -> int:
    """How many numbers the places of a scratch need."""
    return mesh._length("edges") // 2 + mesh._length("triangles") // 3 + 2 * (mesh._length("edge_order") + mesh._length("triangle_order"))


def held_place_room(mesh: Mesh, list_length: int) -> int:
    """How many numbers of places hold the entries of a list until it is known that all of them fit; no call asks for more than ``place_room``, and rows are
    walked twice without them."""
    return max(place_room(mesh), 2 * (mesh._length("edge_order") + mesh._length("triangle_order") + list_length))


def box_room(mesh: Mesh) -> int:
    """How many numbers the boxes of a scratch need."""
    vertices, edges, triangles = mesh._length("positions") // 6, mesh._length("edges") // 2, mesh._length("triangles") // 3
    return 6 * (vertices + edges + triangles + edges // 15 + 16 + triangles // 15 + 16)


def near_box_room(mesh: Mesh) -> int:
    """How many numbers of boxes near rows of cloth that falls are found faster with; no call asks for so many."""
    return box_room(mesh) + 12 * (mesh._length("edges") // 2 // 15 + 16 + mesh._length("triangles") // 3 // 15 + 16)


# The most entries that are held: with more the scratch would be larger than the list that it is for.
_HELD = 1 << 23


class Scratch:
    """What a call over a mesh works in: it grows as a mesh needs it, and nothing is kept in it from call to call. Each thread has its own."""

    __slots__ = ("table", "places", "boxes")

    def __init__(self) -> None:
        self.table, self.places, self.boxes = _room(_UINT32, 0), _room(_UINT32, 0), _room(_INT32, 0)

    def fit(self, mesh: Mesh, list_length: int = 0) -> None:
        """Makes it as long as this mesh needs it, and near rows and a list of this length, which are found faster with more."""
        places = held_place_room(mesh, min(list_length, _HELD))
        for name, numbers, room in (("table", _UINT32, table_room(mesh)), ("places", _UINT32, places), ("boxes", _INT32, near_box_room(mesh))):
            if len(getattr(self, name)) < room:
                setattr(self, name, _room(numbers, room))


def _weights(scene, edges, pair, contact):
    """The vertices whose positions make up the place of a contact, each with the weights of its start and its end in 2^20ths."""
    k, share, unit = contact.k, contact.shares[0], CONTACT_UNIT
    if len(contact.shares) == 3:
        return ((pair.first, unit - k, k),)
    ends = edges[2 * min(pair.first, pair.second) :][:2] if min(pair.first, pair.second) >= 0 else ()
    if len(ends) < 2:
        return ()
    low, high = sorted(ends, key=functools.partial(stands_for, scene))
    # pieces 0 and 1 have the first edge as low high high', pieces 2 and 3 as low low' high'
    if contact.piece < 2:
        return (low, unit - share, 0), (high, share - k, k)
    return (low, unit - k, k - share), (high, 0, share)


def _rooms():
    """What a text is read into: the four lists, and the counts of their parts."""
    lengths = (POSITIONS_LENGTH, EDGES_LENGTH, TRIANGLES_LENGTH, SEAMS_LENGTH)
    return [_room(part.numbers, length) for part, length in zip(_Lists.parts, lengths)], _room(_SIZE, 4)


def scene_in(buffers: typing.Sequence[array.array], counts: typing.Sequence[int]) -> Scene:
    """The scene that stands in front of four arrays, with these counts; its lists are copies."""
    return Scene(*(buffer[: size * count] for buffer, size, count in zip(buffers, (6, 2, 3, 2), counts)))


class BoxedScene:
    """A scene that keeps the boxes of its parts, for a program that drags one vertex after the other. It has its own copy of the scene's lists, and
    nothing but a move changes them here; a move works out the boxes of the parts that have the vertex, and the list is made from those that are
    stored. `scene` is the scene as it stands, for every other question; whoever writes into its buffers all the same makes the next list a
    `Refused` with number 17."""

    __slots__ = ("_scene", "_boxes")

    def __init__(self, scene: Scene) -> None:
        self._scene = Scene(*(_copied(getattr(scene, part.name), part.numbers) for part in _Lists.parts))
        self._boxes = _room(_INT32, BOXES_LENGTH)
        fill_boxes(self._scene, self._boxes)

    @classmethod
    def read(cls, text: ReadableBuffer) -> BoxedScene:
        """Of a text (docs/FORMAT.md), a buffer of bytes, which is read with its boxes."""
        self, (buffers, counts) = cls.__new__(cls), _rooms()
        self._boxes = _room(_INT32, BOXES_LENGTH)
        positions, edges, triangles, seams = buffers
        read_boxed(text, positions, edges, triangles, seams, self._boxes, counts)
        self._scene = scene_in(buffers, counts)
        return self

    @property
    def scene(self) -> Scene:
        """The scene as it stands, for every other question."""
        return self._scene

    @property
    def boxes(self) -> memoryview:
        """The boxes of all vertices, then edges, then triangles, six numbers each, the three lows first: a view that may not be written."""
        parts = self._count("positions", 6) + self._count("edges", 2) + self._count("triangles", 3)
        return memoryview(self._boxes).toreadonly()[: 6 * parts]

    def _count(self, name: str, size: int) -> int:
        return len(getattr(self._scene, name)) // size

    def move_vertex(self, vertex: int, coordinates: _Numbers) -> None:
        """Sets one vertex's six coordinates, start x, y, z, end x, y, z. Refused with 5, 2 or 15, and nothing has changed then."""
        move_vertex(self._scene, self._boxes, vertex, _in_a_row(coordinates, _INT32))

    def move_sewn(self, vertex: int, coordinates: _Numbers) -> None:
        """Moves a vertex with all that are sewn to it, to the same coordinates, so that no seam comes apart: refused with 5 or 2."""
        together = [other for other in range(self._count("positions", 6)) if stands_for(self._scene, other) == stands_for(self._scene, vertex)]
        seams, self._scene.seams = self._scene.seams, None  # boxes do not go by seams
        try:
            for other in (vertex, *together):
                self.move_vertex(other, coordinates)
        finally:
            self._scene.seams = seams

    def listed(self) -> typing.List[Pair]:
        """The listed pairs, in order."""
        entries = _room(_UINT32, count_stored(self._scene, self._boxes))
        list_stored(self._scene, self._boxes, entries)
        return [Pair.of_entry(number) for number in entries]

    def settled(self) -> typing.List[typing.Tuple[Pair, Word]]:
        """The listed pairs, in order, each with its word of four."""
        count = count_stored(self._scene, self._boxes)
        entries, words = _room(_UINT32, count), _room(_UINT8, count)
        settle_stored(self._scene, self._boxes, entries, words)
        return [(Pair.of_entry(number), Word(word)) for number, word in zip(entries, words)]


def scene_of(boxed: BoxedScene) -> Scene:
    """The scene of one that keeps its boxes, for every other call."""
    return boxed.scene


def stands_for(scene: Scene, vertex: int) -> int:
    """The vertex that a vertex stands for, by the seams of an accepted scene: another, or itself. Lower and higher go by this number."""
    with _Lent() as held:
        seams = _looked_at(held, _Lists.parts[3], scene)
        return next((seams[at + 1] for at in range(0, len(seams) - 1, 2) if seams[at] == vertex), vertex)


def report(text: ReadableBuffer) -> bytes:
    """The report of a scene text as the program prints it, in bytes: the lines of the listed pairs and the totals, or the one line of a refusal."""
    out = bytearray(REPORT_LENGTH)
    return bytes(out[: write_report(text, out)])


# ---- Series


class Hit(typing.NamedTuple):
    """A hit of a series: its step, counted from 1, and its pair."""

    step: int
    pair: Pair


class Told(typing.NamedTuple):
    """What is told of a series: its first 64 hits in step and list order; the count of later ones, none of which replaced an entry; totals over all
    steps; the first step with a hit, or 0; the last step, a `Scene`; and its listed pairs."""

    log: typing.List[Hit]
    later: int
    listed: int
    hits: int
    misses: int
    touches: int
    aparts: int
    first: int
    last: Scene
    pairs: typing.List[Pair]


def series(text: ReadableBuffer, room: int = REPORT_ROOM) -> Told:
    """What is told of the series of a text (docs/FORMAT.md), a buffer of bytes, where each step's list has so much room."""
    buffers, counts = _rooms()
    entries, log, told = _room(_UINT32, room), _room(_UINT32, LOG_LENGTH), _room(_UINT64, TOLD_LENGTH)
    positions, edges, triangles, seams = buffers
    count = tell_series(text, positions, edges, triangles, seams, _room(_INT32, BOXES_LENGTH), entries, counts, log, told)
    last = scene_in(buffers, counts)
    logged = [Hit(log[at], Pair.of_entry(log[at + 1])) for at in range(0, 2 * told[0], 2)]
    later, listed, hits, misses, touches, aparts, first = told[1:]
    return Told(logged, later, listed, hits, misses, touches, aparts, first, last, [Pair.of_entry(entry) for entry in entries[:count]])
