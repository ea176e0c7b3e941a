"""Where a hit pair touched, against the place that the other part of the pair has by its own shares: the two meet, so that both are near."""

import array
import collections
import random
import unittest

import makhnodri
from makhnodri import CONTACT_UNIT, EE, PT, Contact, Pair, Refused, Scene
from . import SCENES, triangle_and_point


def on_triangle(k, shares):
    """The weights of a piece's corners, the lowest left out: (corner, whether at the end, weight), by the shares of the triangle."""
    _, middle, high = shares
    return (
        ((1, 0, middle), (2, 0, high - k), (2, 1, k)),
        ((1, 0, middle + high - k), (1, 1, k - high), (2, 1, high)),
        ((0, 1, k - middle - high), (1, 1, middle), (2, 1, high)),
    )


def on_edge(k, share):
    """The same of an edge: of its lower half, low high high', and of its upper one, low low' high'."""
    return ((1, 0, share - k), (1, 1, k)), ((0, 1, k - share), (1, 1, share))


def other_place(scene, pair, contact):
    """The place by the triangle, or by the edge with the higher place, and how far apart its corners are."""
    if pair.kind == PT:
        corners, weights = scene.triangles[3 * pair.second :][:3], on_triangle(contact.k, contact.shares)[contact.piece]
    else:
        corners, weights = scene.edges[2 * max(pair[1:]) :][:2], on_edge(contact.k, contact.shares[1])[contact.piece % 2]
    corners = sorted(corners, key=lambda vertex: makhnodri.stands_for(scene, vertex))
    at = [scene.positions[6 * vertex :][:6] for vertex in corners]
    place = [at[0][axis] + sum(weight * (at[corner][axis + 3 * end] - at[0][axis]) for corner, end, weight in weights) / CONTACT_UNIT for axis in range(3)]
    return place, max(max(column) - min(column) for axis in range(3) for column in [[row[axis + 3 * end] for row in at for end in (0, 1)]])


def way(scene, pair):
    """The longest way or length of the part that the place is worked out from."""
    vertices = [pair.first] if pair.kind == PT else scene.edges[2 * min(pair[1:]) :][:2]
    numbers = [[scene.positions[6 * vertex + axis + 3 * end] for vertex in vertices for end in (0, 1)] for axis in range(3)]
    return max(max(row) - min(row) for row in numbers)


class Places(unittest.TestCase):
    def near(self, scene, pair, contact):
        """Each share and the time are cut by less than a 2^20th, and a weight is made of at most three of them."""
        place, (other, spread) = scene.contact_point(pair, contact), other_place(scene, pair, contact)
        most = (2 * way(scene, pair) + 9 * spread) / CONTACT_UNIT
        self.assertTrue(all(abs(a - b) <= most for a, b in zip(place, other)), f"{scene.saved()} {pair} {place} {other}")

    def test_the_place_is_where_the_other_part_is_too(self):
        held = {PT: 0, EE: 0}
        for file in SCENES:
            try:
                scene = Scene.read(file.read_bytes())
                found = scene.contacts()
            except Refused:
                continue
            for pair, _, contact in found[:400]:
                if contact is None:
                    self.assertIsNone(scene.contact_point(pair, contact))
                else:
                    self.near(scene, pair, contact)
                    held[pair.kind] += 1
        self.assertGreater(min(held.values()), 60)

    def test_so_it_is_in_every_piece(self):
        chance, held = random.Random(40), collections.Counter()
        for _ in range(1500):
            scene = Scene([chance.randint(-40, 40) for _ in range(24)], [1, 0, 2, 3], [2, 0, 1])
            for kind, first, second in ((PT, 3, 0), (EE, 0, 1)):
                _, contact = scene.contact(kind, first, second)
                if contact:
                    self.near(scene, Pair(kind, first, second), contact)
                    held[kind, contact.piece] += 1
        self.assertEqual(len(held), 7)
        self.assertGreater(min(held.values()), 5)

    def test_a_point_stands_where_it_is_at_that_time(self):
        positions, edges, triangles, seams = triangle_and_point()
        positions[21:] = array.array("i", [3, 1, -3])
        for lent in (positions, memoryview(positions).cast("B").cast("i", [4, 2, 3])):
            scene = Scene(lent, edges, triangles, seams)
            _, contact = scene.contact(PT, 3, 0)
            self.assertEqual((contact.time, scene.contact_point(Pair(PT, 3, 0), contact)), (0.25, (1.5, 1.0, 0.0)))

    def test_no_place_of_parts_that_are_not_there(self):
        scene = Scene(*triangle_and_point())
        _, contact = scene.contact(PT, 3, 0)
        self.assertIsNotNone(scene.contact_point(Pair(PT, 3, 0), contact))
        self.assertIsNone(scene.contact_point(Pair(PT, 4, 0), contact))
        self.assertIsNone(scene.contact_point(Pair(PT, -1, 0), contact))
        self.assertIsNone(scene.contact_point(Pair(PT, 3, 0), None))
        self.assertIsNone(scene.contact_point(Pair(EE, 0, 1), Contact(0, 0, (0, 0))))
        self.assertIsNone(Scene().contact_point(Pair(PT, 0, 0), contact))
