"""Every number of the table is met, with its line, its count or nothing, and leaves every buffer as it was."""

import array
import pickle
import unittest

import makhnodri
from . import TOP, triangle_and_point

MET = set()


def change(place, numbers):
    lists = list(triangle_and_point())
    lists[place] = array.array(lists[place].typecode, numbers)
    return makhnodri.Scene(*lists)


class Refusals(unittest.TestCase):
    def refused(self, number, carried, call, *given, file=None):
        with self.assertRaises(makhnodri.Refused) as told:
            call(*given)
        said = told.exception
        self.assertEqual((said.number, said.carried, said.file), (number, carried, file))
        self.assertEqual(said.count, carried if number == 7 else None)
        self.assertEqual(said.line, carried if carried and number != 7 else None)
        self.assertEqual(said.words, makhnodri.refusal_words(number))
        self.assertIn(said.words, str(said))
        again = pickle.loads(pickle.dumps(said))
        self.assertEqual((again.number, again.carried, again.file, str(again)), (number, carried, file, str(said)))
        MET.add(number)

    def test_of_a_scene(self):
        far = list(triangle_and_point()[0])
        far[0] = far[3] = 524288
        sewn = makhnodri.Scene(*triangle_and_point()[:3], array.array("H", [3, 0]))
        for number, scene in ((1, change(0, [0] * 7)), (2, change(0, far)), (3, change(2, [0, 1, 4])), (4, change(2, [0, 1, 1])), (15, sewn)):
            for call, *given in (
                ("check_scene",), ("count_pairs",), ("list_pairs", None), ("settle_scene", None, None), ("judge_pt", 3, 0), ("judge_ee", 0, 1),
                ("judge_pt_piece", 3, 0, 0), ("judge_ee_piece", 0, 1, 0), ("settle_pt", 3, 0), ("settle_ee", 0, 1), ("settle_pt_piece", 3, 0, 0),
                ("settle_ee_piece", 0, 1, 0), ("contact_pt", 3, 0, array.array("I", [0] * 5)), ("contact_ee", 0, 1, array.array("I", [0] * 5)),
                ("contact_scene", None, None, None), ("check_claims", b"", None),
            ):
                self.refused(number, 0, getattr(makhnodri, call), scene, *given)
        for number, positions, edges, triangles in ((1, [0] * 7, [], []), (2, far, [], []), (3, [0] * 6, [0, 1], []), (4, [0] * 12, [1, 1], [])):
            lists = array.array("i", positions), array.array("H", edges), array.array("H", triangles)
            before = [list(one) for one in lists]
            self.refused(number, 0, makhnodri.turn_scene, *lists)
            self.assertEqual([list(one) for one in lists], before)

    def test_of_a_pair(self):
        scene = makhnodri.Scene(*triangle_and_point())
        contact = array.array("I", [7] * 5)
        for call, *given in (("judge_pt", 4, 0), ("judge_pt", 3, 1), ("settle_ee", 0, 1), ("judge_pt_piece", 3, 0, 3), ("contact_pt", 4, 0, contact)):
            self.refused(5, 0, getattr(makhnodri, call), scene, *given)
        for call, *given in (("judge_pt", 0, 0), ("settle_pt", 1, 0), ("contact_pt", 2, 0, contact)):
            self.refused(6, 0, getattr(makhnodri, call), scene, *given)
        self.assertEqual(contact, array.array("I", [7] * 5))

    def test_of_a_list_of_ones_own(self):
        scene = makhnodri.Scene(*triangle_and_point())
        sound = makhnodri.Pair(makhnodri.PT, 3, 0).entry
        words, rows = bytearray(b"\x07" * 3), array.array("I", [7] * 15)
        for number, at, entries in ((5, 2, [sound, 1 << 21]), (5, 1, [sound + 1, 0]), (6, 3, [sound, sound, 0]), (7, 4, [sound] * 4)):
            own = array.array("I", entries)
            self.refused(number, at, makhnodri.settle_list, scene, own, words)
            self.refused(number, at, makhnodri.contact_list, scene, own, words, rows)
        self.assertEqual((bytes(words), list(rows)), (b"\x07" * 3, [7] * 15))
        self.assertEqual(scene.settle_pairs([makhnodri.Pair(makhnodri.PT, 3, 0)] * 2), [scene.settled()[0][1]] * 2)

    def test_of_contacts_beyond_the_first_range(self):
        lists = triangle_and_point()
        lists[0][18] = lists[0][21] = 262144
        scene, contact = makhnodri.Scene(*lists), array.array("I", [7] * 5)
        self.refused(16, 0, makhnodri.contact_pt, scene, 3, 0, contact)
        self.refused(16, 0, makhnodri.contact_scene, scene, None, None, None)
        self.refused(16, 0, scene.contacts)
        self.assertEqual(contact, array.array("I", [7] * 5))

    def test_of_room_with_the_count(self):
        scene = makhnodri.Scene.read((TOP / "scenes/printed.scene").read_bytes())
        one, words, tests = array.array("I", [7]), bytearray(b"\x07" * 9), array.array("Q", [7])
        self.refused(7, 2, makhnodri.list_pairs, scene, one, tests)
        self.refused(7, 2, makhnodri.settle_scene, scene, one, words)
        self.refused(7, 2, makhnodri.settle_scene, scene, array.array("I", [7] * 9), words[:1])
        self.refused(7, 2, makhnodri.contact_scene, scene, array.array("I", [7] * 9), words, array.array("I", [7] * 9))
        claims = (TOP / "scenes/printed.claims").read_bytes()
        self.refused(7, claims.count(b"\n"), makhnodri.check_claims, scene, claims, bytearray(1))
        self.assertEqual((one[0], bytes(words), tests[0]), (7, b"\x07" * 9, 7))
        heap = makhnodri.report((TOP / "scenes/refused-heap.scene").read_bytes())
        self.assertTrue(heap.startswith(b"refused\t7\t"))

    def test_of_a_text_with_the_line(self):
        v, e, t = b"v\t0\t0\t0\t0\t0\t0\n", b"e\t0\t1\n", b"t\t0\t1\t2\n"
        for number, line, text in (
            (9, 2, v + b"v\n"), (9, 1, v[:-1]), (10, 4, v + v + e + v), (10, 5, v * 3 + t + e), (11, 513, v * 513), (11, 2 + 1025, v * 2 + e * 1025),
            (2, 1, v.replace(b"0", b"524288", 1)), (3, 2, v + e), (4, 3, v + v + b"e\t1\t1\n"), (15, 3, v + v + b"w\t0\t1\n"), (8, 0, b"v" * 32769),
        ):
            self.refused(number, line, makhnodri.Scene.read, text)
            self.refused(number, line, makhnodri.BoxedScene.read, text)
            self.assertEqual(makhnodri.report(text), b"refused\t%d\t%d\n" % (number, line))

    def test_of_buffers_that_are_too_short_for_a_text(self):
        lengths = (3072, 2048, 1536, 1024)
        for place in range(4):
            buffers = [array.array("i" if i == 0 else "H", [7] * (length - (i == place))) for i, length in enumerate(lengths)]
            counts = array.array("Q", [7] * 4)
            boxes = array.array("i", [7] * 12288)
            self.refused(12, 0, makhnodri.read_scene, b"", *buffers, counts)
            self.refused(12, 0, makhnodri.read_boxed, b"", *buffers, boxes, counts)
            self.assertTrue(all(number == 7 for buffer in (*buffers, boxes, counts) for number in buffer))
        buffers = [array.array("i" if i == 0 else "H", [7] * length) for i, length in enumerate(lengths)]
        self.refused(12, 0, makhnodri.read_boxed, b"v", *buffers, boxes[:12287], counts)
        self.refused(9, 1, makhnodri.read_boxed, b"v", *buffers, boxes, counts)
        self.assertTrue(all(number == 7 for buffer in (*buffers, boxes, counts) for number in buffer))

    def test_of_stored_boxes(self):
        lists = triangle_and_point()
        scene, boxes, to = makhnodri.Scene(*lists), array.array("i", [7] * 12288), array.array("i", [1, 1, 5, 1, 1, 4])
        found, words, tests = array.array("I", [7] * 9), bytearray(b"\x07" * 9), array.array("Q", [7])
        for number, one, kept in ((12, scene, boxes[:12287]), (12, change(0, [0] * 7), boxes[:12287]), (1, change(0, [0] * 7), boxes), (17, scene, boxes)):
            if number != 17:
                self.refused(number, 0, makhnodri.fill_boxes, one, kept)
                self.refused(number, 0, makhnodri.move_vertex, one, kept, 3, to)
            self.refused(number, 0, makhnodri.count_stored, one, kept, tests)
            self.refused(number, 0, makhnodri.list_stored, one, kept, None, tests)
            self.refused(number, 0, makhnodri.settle_stored, one, kept, found, words)
        self.refused(5, 0, makhnodri.move_vertex, scene, boxes, 4, to)
        self.refused(2, 0, makhnodri.move_vertex, scene, boxes, 3, array.array("i", [0, 0, 0, 0, 0, 524288]))
        self.assertEqual((set(boxes), list(lists[0]), set(found), tests[0]), ({7}, list(triangle_and_point()[0]), {7}, 7))
        makhnodri.fill_boxes(scene, boxes)
        self.refused(7, 1, makhnodri.list_stored, scene, boxes, None, tests)
        self.refused(7, 1, makhnodri.settle_stored, scene, boxes, found, None)
        self.assertEqual((bytes(words), set(found), tests[0]), (b"\x07" * 9, {7}, 7))

    def test_of_two_files(self):
        v, three, good = b"v 0 0 0\n", b"v 0 0 0\nv 1 0 0\nv 0 1 0\n", b"v 0 0 0\nv 1 0 0\nv 0 1 0\nf 1 2 3\n"
        for number, line, file in (
            (9, 2, v + b"o a\n"), (9, 1, v[:-1]), (10, 5, good + v), (11, 514, b"# a\n" + v * 513), (2, 2, b"\nv 0 0 -5242.88\n"), (3, 4, three + b"f 1 2 4\n"),
            (4, 4, three + b"f 1 2 1\n"), (8, 0, b"\n" * 32769),
        ):
            self.refused(number, line, makhnodri.Scene.import_obj, file, good, file="start")
            self.refused(number, line, makhnodri.Scene.import_obj, good, file, file="end")
            self.refused(number, line, makhnodri.Scene.import_obj, file, file, file="start")
        for other in (three, v + good, three + b"f 2 3 1\n", b""):
            self.refused(14, 0, makhnodri.Scene.import_obj, good, other)
        lengths = (3072, 2048, 1536, 1024, 12288)
        for place in range(5):
            buffers = [array.array("i" if i in (0, 4) else "H", [7] * (length - (i == place))) for i, length in enumerate(lengths)]
            counts = array.array("Q", [7] * 4)
            self.refused(12, 0, makhnodri.import_scene, b"x", b"", *buffers, counts)
            self.assertTrue(all(number == 7 for buffer in (*buffers, counts) for number in buffer))

    def test_of_claims(self):
        scene = makhnodri.Scene.read((TOP / "scenes/printed.scene").read_bytes())
        good = (TOP / "scenes/printed.claims").read_bytes().splitlines(keepends=True)[0]
        weights = b"\t1\t1\t1\t1\t0\t0\n"
        for number, line, claims in ((9, 2, good + b"pt\n"), (5, 1, b"pt\t9\t0\t0" + weights), (6, 2, good + b"pt\t0\t0\t0" + weights), (8, 0, b"p" * 32769)):
            answers = bytearray(b"\x07" * 4)
            self.refused(number, line, makhnodri.check_claims, scene, claims, answers)
            self.assertEqual(answers, b"\x07" * 4)
            self.refused(number, line, scene.claims, claims)

    def test_of_a_series(self):
        v, n, on = b"v\t0\t0\t0\t0\t0\t0\n", b"n\n", b"v\t0\t0\t0\n"
        lengths = (3072, 2048, 1536, 1024, 12288, 9, 4, 128, 8)
        for number, line, text, short in (
            (13, 4, v + n + on + on, None), (13, 3, v + n + n, None), (13, 2, v + n, None), (2, 3, v + n + on.replace(b"0", b"524288", 1), None),
            (10, 3, v + n + b"e\t0\t1\n", None), (9, 3, v + n + v, None), (8, 0, n * 16385, None), *((12, 0, v, place) for place in range(5)),
        ):
            buffers = [array.array(kind, [7] * (length - (place == short))) for place, (kind, length) in enumerate(zip("iHHHiIQIQ", lengths))]
            self.refused(number, line, makhnodri.tell_series, text, *buffers)
            self.assertTrue(all(number == 7 for buffer in buffers for number in buffer))

    @classmethod
    def tearDownClass(cls):
        missing = set(makhnodri._REFUSALS) - MET - {18}  # of a mesh: test_meshes meets it
        assert not missing, f"refusals that were never met: {missing}"
