"""A scene that keeps its boxes: after any moves its boxes, its list and its words are those of the scene as it stands."""

import array
import random
import unittest

import makhnodri
from makhnodri import BoxedScene, Scene
from . import SCENES, TOP, triangle_and_point


def boxes_of(scene):
    """The boxes, from the documents alone: all vertices, then edges, then triangles, the three lows first."""
    corners = [list(scene.positions[at : at + 6]) for at in range(0, len(scene.positions), 6)]
    parts = [[vertex] for vertex in range(len(corners))]
    parts += [scene.edges[at : at + 2] for at in range(0, len(scene.edges), 2)]
    parts += [scene.triangles[at : at + 3] for at in range(0, len(scene.triangles), 3)]
    sides = ([[corners[vertex][axis + time] for vertex in part for time in (0, 3)] for axis in range(3)] for part in parts)
    return [number for axes in sides for number in (*map(min, axes), *map(max, axes))]


def same(first, second):
    return all(list(getattr(first, name)) == list(getattr(second, name)) for name in Scene.__slots__)


class Boxes(unittest.TestCase):
    def hold(self, boxed):
        self.assertEqual(list(boxed.boxes), boxes_of(boxed.scene))
        self.assertEqual(boxed.listed(), boxed.scene.listed())
        self.assertEqual(boxed.settled(), boxed.scene.settled())

    def test_chains_of_moves(self):
        moved = torn = 0
        for path in SCENES:
            text = path.read_bytes()
            try:
                boxed = BoxedScene.read(text)
            except makhnodri.Refused:
                continue
            if len(boxed.scene.positions) > 300:
                continue
            self.hold(boxed)
            pick, vertices = random.Random(path.name), len(boxed.scene.positions) // 6
            for _ in range(5 if vertices else 0):
                vertex, to = pick.randrange(vertices), [pick.randint(-12, 12) for _ in range(6)]
                kept = Scene(*(array.array(numbers.typecode, numbers) for numbers in (getattr(boxed.scene, name) for name in Scene.__slots__)))
                sewn = vertex in kept.seams
                if sewn and pick.random() < 0.5:
                    boxed.move_sewn(vertex, to)
                    for other in range(vertices):
                        if makhnodri.stands_for(kept, other) == makhnodri.stands_for(kept, vertex):
                            kept.positions[6 * other : 6 * other + 6] = array.array("i", to)
                elif sewn:
                    with self.assertRaises(makhnodri.Refused) as told:
                        boxed.move_vertex(vertex, to)
                    self.assertEqual(told.exception.number, makhnodri.BROKEN_SEAM)
                    boxed.move_vertex(vertex, kept.positions[6 * vertex : 6 * vertex + 6])  # to its own place
                    torn += 1
                else:
                    boxed.move_vertex(vertex, to)
                    kept.positions[6 * vertex : 6 * vertex + 6] = array.array("i", to)
                    moved += 1
                self.assertTrue(same(boxed.scene, kept))
                self.hold(boxed)
        self.assertGreater(moved, 20)
        self.assertGreater(torn, 0)

    def test_it_has_its_own_lists(self):
        lists = triangle_and_point()
        boxed = BoxedScene(Scene(*lists))
        lists[0][18] = 99
        self.assertEqual(boxed.scene.positions[18], 1)
        with self.assertRaises(TypeError):
            boxed.boxes[0] = 5
        with self.assertRaises(AttributeError):
            boxed.scene = Scene(*lists)
        self.hold(boxed)
        self.assertIs(makhnodri.scene_of(boxed), boxed.scene)

    def test_what_is_written_behind_its_back_is_found(self):
        boxed = BoxedScene.read((TOP / "scenes/printed.scene").read_bytes())
        boxed.scene.positions[0] += 1
        for call in (boxed.listed, boxed.settled):
            with self.assertRaises(makhnodri.Refused) as told:
                call()
            self.assertEqual(told.exception.number, makhnodri.STALE_BOX)

    def test_refused_moves_change_nothing(self):
        boxed = BoxedScene(Scene(*triangle_and_point()))
        before, boxes = list(boxed.scene.positions), list(boxed.boxes)
        for number, vertex, to in ((5, 4, [0] * 6), (5, 4, [524288] * 6), (2, 3, [0] * 5 + [-524288]), (2, 0, [524288] + [0] * 5)):
            for call in (boxed.move_vertex, boxed.move_sewn):
                with self.assertRaises(makhnodri.Refused) as told:
                    call(vertex, to)
                self.assertEqual(told.exception.number, number)
        with self.assertRaises(ValueError):
            boxed.move_vertex(3, [0] * 5)
        with self.assertRaises(OverflowError):
            boxed.move_vertex(-1, [0] * 6)
        self.assertEqual((list(boxed.scene.positions), list(boxed.boxes)), (before, boxes))
        with self.assertRaises(makhnodri.Refused):
            BoxedScene(Scene([0] * 7))
        self.assertEqual(BoxedScene(Scene()).listed(), [])

    def test_positions_that_may_not_be_written_are_not_moved(self):
        lists = triangle_and_point()
        boxes = array.array("i", [0]) * makhnodri.BOXES_LENGTH
        scene = Scene(memoryview(lists[0]).toreadonly(), *lists[1:])
        makhnodri.fill_boxes(scene, boxes)
        with self.assertRaises(TypeError):
            makhnodri.move_vertex(scene, boxes, 3, array.array("i", [0] * 6))
        with self.assertRaises(ValueError):  # the new coordinates stand in the positions
            makhnodri.move_vertex(Scene(*lists), boxes, 3, memoryview(lists[0])[:6])
