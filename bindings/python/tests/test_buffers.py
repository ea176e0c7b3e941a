"""Buffers go in as they are, from every kind of object that has one; what is no such buffer is refused before the library is called."""

import array
import contextlib
import ctypes
import unittest

import makhnodri
from . import TOP, triangle_and_point

PRINTED = (TOP / "scenes/printed.scene").read_bytes()


@contextlib.contextmanager
def seen(symbol):
    """The arguments that reach the library's function, which is called all the same."""
    function, calls = makhnodri._functions[symbol], []

    def called(*words):
        calls.append(words)
        return function(*words)

    makhnodri._functions[symbol] = called
    try:
        yield calls
    finally:
        makhnodri._functions[symbol] = function


class Lent(unittest.TestCase):
    EMPTY = array.array("H")

    def test_arrays_are_lent_where_they_stand(self):
        positions, edges, triangles, seams = triangle_and_point()
        found, words = array.array("I", [9] * 8), bytearray(b"\x09" * 8)
        at = ctypes.addressof((ctypes.c_char * 8).from_buffer(words))
        with seen("settle_scene_slices") as calls:
            self.assertEqual(makhnodri.settle_scene(makhnodri.Scene(positions, edges, triangles, seams), found, words), 1)
        place, count = found.buffer_info()
        self.assertEqual(calls, [(positions.buffer_info()[0], 24, None, 0, triangles.buffer_info()[0], 3, None, 0, place, count, at, 8)])
        self.assertEqual((found[0], found[1:], words), (makhnodri.entry(makhnodri.PT, 3, 0), array.array("I", [9] * 7), b"\x00" + b"\x09" * 7))

    def test_bytes_and_what_may_not_be_written_are_lent_where_they_stand(self):
        address = ctypes.cast(ctypes.c_char_p(PRINTED), ctypes.c_void_p).value
        for text in (PRINTED, memoryview(PRINTED), memoryview(PRINTED)[:]):
            with seen("write_report") as calls:
                self.assertEqual(makhnodri.write_report(text, bytearray(65536)), len((TOP / "scenes/printed.report").read_bytes()))
            self.assertEqual(calls[0][:2], (address, len(PRINTED)))
        part = memoryview(PRINTED)[3:]
        with seen("write_report") as calls:
            makhnodri.report(part)
        self.assertEqual(calls[0][:2], (address + 3, len(PRINTED) - 3))

    def every_way(self, numbers, code, ctype):
        """The same numbers in objects of different kinds, each with the address of the first."""
        own = array.array(code, numbers)
        yield own, own.buffer_info()[0]
        yield memoryview(own).toreadonly(), own.buffer_info()[0]
        rows = memoryview(own).cast("B").cast(code, [2, len(numbers) // 2])
        yield rows, own.buffer_info()[0]
        foreign = (ctype * len(numbers))(*numbers)
        yield foreign, ctypes.addressof(foreign)
        table = (ctype * 2 * (len(numbers) // 2))(*((ctype * 2)(*numbers[i : i + 2]) for i in range(0, len(numbers), 2)))
        yield table, ctypes.addressof(table)
        with contextlib.suppress(ImportError):
            import numpy

            grid = numpy.array(numbers, dtype=code).reshape(-1, 2)
            yield grid, grid.ctypes.data
            grid.flags.writeable = False
            yield grid, grid.ctypes.data

    def test_every_kind_of_object_goes_in_without_a_copy(self):
        positions, *_ = triangle_and_point()
        edges = [0, 1, 1, 2, 0, 3]
        ways = 0
        for places, at in self.every_way(list(positions), "i", ctypes.c_int32):
            for ends, ends_at in self.every_way(edges, "H", ctypes.c_uint16):
                with seen("check_scene_slices") as calls:
                    makhnodri.check_scene(makhnodri.Scene(places, ends, (0, 1, 2)))
                self.assertEqual(calls[0][:4], (at, 24, ends_at, 6))
                self.assertEqual(makhnodri.settle_pt(makhnodri.Scene(places, ends, [0, 1, 2]), 3, 0), makhnodri.HIT)
                ways += 1
        self.assertGreaterEqual(ways, 25)

    def test_a_buffer_is_given_back_after_the_call(self):
        positions, edges, triangles, seams = triangle_and_point()
        scene = makhnodri.Scene(positions, edges, triangles, seams)
        makhnodri.check_scene(scene)
        with self.assertRaises(makhnodri.Refused):
            makhnodri.judge_pt(scene, 9, 9)
        with self.assertRaises(TypeError):
            makhnodri.list_pairs(scene, bytes(8))
        positions.append(0)  # an array that is still lent could not grow
        self.assertEqual(len(positions), 25)

    def test_a_scene_reads_what_its_buffers_hold_now(self):
        positions, edges, triangles, seams = triangle_and_point()
        scene = makhnodri.Scene(positions, edges, triangles, seams)
        self.assertEqual(makhnodri.judge_pt(scene, 3, 0), makhnodri.HIT)
        positions[18] = positions[21] = 9
        self.assertEqual(makhnodri.judge_pt(scene, 3, 0), makhnodri.MISS)

    def test_no_buffer_where_there_is_nothing(self):
        for nothing in (None, array.array("H"), (), [], memoryview(self.EMPTY)):
            scene = makhnodri.Scene(None, nothing, nothing, nothing)
            self.assertEqual((makhnodri.count_pairs(scene), scene.settled(), scene.contacts()), (0, [], []))
        self.assertEqual(makhnodri.Scene.read(b"").listed(), [])


class WrongBuffers(unittest.TestCase):
    def setUp(self):
        self.lists = triangle_and_point()
        self.scene = makhnodri.Scene(*self.lists)

    def refused(self, error, call, *given):
        """Refused by the module, with the library never called."""
        with seen(call if call in makhnodri._functions else f"{call}_slices") as calls, self.assertRaises(error) as told:
            getattr(makhnodri, call)(*given)
        self.assertEqual(calls, [])
        self.assertNotIsInstance(told.exception, makhnodri.Refused)

    def test_numbers_of_another_type(self):
        for place, code in ((0, "h"), (0, "I"), (0, "l"), (0, "q"), (0, "f"), (0, "d"), (0, "B"), (1, "h"), (1, "I"), (2, "b"), (2, "i"), (3, "B")):
            lists = list(self.lists)
            lists[place] = array.array(code, [0] * 6)
            self.refused(TypeError, "check_scene", makhnodri.Scene(*lists))
        for given in (array.array("i", [0] * 9), array.array("L", [0] * 9), array.array("Q", [0] * 9), bytearray(36)):
            self.refused(TypeError, "list_pairs", self.scene, given)
        self.refused(TypeError, "settle_scene", self.scene, array.array("I", [0] * 9), array.array("b", [0] * 9))
        self.refused(TypeError, "write_report", array.array("b", [0] * 9), bytearray(65536))

    def test_numbers_in_the_other_order_of_bytes(self):
        other = (ctypes.c_int32.__ctype_be__ if memoryview((ctypes.c_int32 * 1)()).format[0] == "<" else ctypes.c_int32.__ctype_le__) * 24
        self.refused(TypeError, "check_scene", makhnodri.Scene(other(), *self.lists[1:]))

    def test_no_buffer_at_all(self):
        for given in ("v\n", 3, 2.5, {}, object(), iter([1])):
            self.refused(TypeError, "write_report", given, bytearray(65536))
            self.refused(TypeError, "check_scene", makhnodri.Scene(given))
        for given in (None, self.lists, "scene"):
            self.refused(TypeError, "check_scene", given)

    def test_numbers_that_do_not_stand_one_behind_the_other(self):
        every_other = memoryview(array.array("i", range(48)))[::2]
        backwards = memoryview(self.lists[0])[::-1]
        for given in (every_other, backwards):
            self.refused(TypeError, "check_scene", makhnodri.Scene(given, *self.lists[1:]))

    def test_numbers_at_an_odd_place(self):
        room = bytearray(4 * 24 + 8)
        odd = next(at for at in range(1, 5) if (ctypes.addressof(ctypes.c_char.from_buffer(room)) + at) % 4)
        self.refused(ValueError, "check_scene", makhnodri.Scene(memoryview(room)[odd : odd + 96].cast("i"), *self.lists[1:]))

    def test_what_is_written_may_be_written(self):
        found, words = array.array("I", [0] * 8), bytearray(8)
        for given in ((memoryview(found).toreadonly(), words), (found, bytes(8)), (found, memoryview(words).toreadonly())):
            self.refused(TypeError, "settle_scene", self.scene, *given)
        self.refused(TypeError, "write_report", b"", bytes(65536))

    def test_what_is_written_overlaps_nothing(self):
        room = array.array("I", [0] * 40)
        whole = memoryview(room).cast("B")
        scene = makhnodri.Scene(whole[:96].cast("i"), None, whole[96:102].cast("H"))
        self.refused(ValueError, "list_pairs", scene, whole[92:100].cast("I"))
        self.refused(ValueError, "settle_scene", scene, whole[104:112].cast("I"), whole[111:120])
        self.assertEqual(makhnodri.list_pairs(makhnodri.Scene(whole[:96].cast("i"), None, array.array("H", [0, 1, 2])), whole[96:104].cast("I")), 1)

    def test_what_is_read_may_overlap(self):
        corners = self.lists[2]
        makhnodri.check_scene(makhnodri.Scene(self.lists[0], memoryview(corners)[:2], corners))

    def test_buffers_that_are_too_short(self):
        self.refused(ValueError, "contact_pt", self.scene, 3, 0, array.array("I", [0] * 4))
        self.refused(ValueError, "contact_pt", self.scene, 3, 0, None)
        self.refused(ValueError, "contact_ee", self.scene, 0, 0, array.array("I"))
        self.refused(ValueError, "count_pairs", self.scene, array.array("Q"))
        self.refused(ValueError, "write_report", b"", bytearray(65535))
        buffers = [array.array("i", [0] * 3072), *(array.array("H", [0] * length) for length in (2048, 1536, 1024))]
        self.refused(ValueError, "read_scene", b"", *buffers, array.array("Q", [0] * 3))

    def test_places(self):
        for place in (-1, 1 << 64):
            self.refused(OverflowError, "judge_pt", self.scene, place, 0)
            self.refused(OverflowError, "settle_pt_piece", self.scene, 3, 0, place)
        for place in (1.0, "3", None):
            self.refused(TypeError, "judge_pt", self.scene, 3, place)
        with self.assertRaises(makhnodri.Refused) as told:
            makhnodri.judge_pt(self.scene, (1 << 64) - 1, 0)
        self.assertEqual(told.exception.number, makhnodri.NOT_THERE)

    def test_too_few_and_too_many_arguments(self):
        self.refused(TypeError, "judge_pt", self.scene, 3)
        self.refused(TypeError, "judge_pt", self.scene, 3, 0, 0)
        self.refused(TypeError, "list_pairs", self.scene)
