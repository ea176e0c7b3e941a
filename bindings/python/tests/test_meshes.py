"""Meshes of any size: their rows are the scene's list, stretches join, orders change nothing, and buffers are lent as they are."""

import array
import contextlib
import ctypes
import random
import threading
import unittest

import makhnodri
from makhnodri import Mesh, Pair, Refused, Scene, Scratch
from . import SCENES


def mesh_of(scene, **orders):
    """The same lists with wider numbers."""
    wide = (array.array("I", given) if given is not None else None for given in (scene.edges, scene.triangles, scene.seams))
    return Mesh(scene.positions, *wide, **orders)


def scenes():
    for path in SCENES:
        try:
            scene = Scene.read(path.read_bytes())
        except Refused:
            continue
        if len(scene.positions) <= 600:
            yield path.name, scene


def pairs_of(mesh, scratch, first, end, list_rows=makhnodri.list_rows, count_rows=makhnodri.count_rows):
    entries = array.array("Q", bytes(8 * count_rows(mesh, scratch, first, end)))
    list_rows(mesh, scratch, first, end, entries)
    return [Pair.of_mesh_entry(number) for number in entries]


def sheet(wide, deep, step=10):
    """A sheet of wide x deep vertices that falls by half a step, and a needle above it that does not."""
    positions = [n for y in range(deep) for x in range(wide) for n in (step * x, step * y, 0, step * x, step * y, step // 2)]
    triangles = [n for y in range(deep - 1) for x in range(wide - 1) for n in (wide * y + x, wide * y + x + 1, wide * y + x + wide)]
    needle = len(positions) // 6
    positions += [13, 12, 2, 13, 12, 2, 13, 12, 30, 13, 12, 30]
    return Mesh(array.array("i", positions), array.array("I", [needle, needle + 1]), array.array("I", triangles)), needle


class Meshes(unittest.TestCase):
    def test_the_rows_of_a_scene_are_its_list(self):
        scratch, seen = Scratch(), 0
        for name, scene in scenes():
            mesh = mesh_of(scene)
            makhnodri.check_mesh(mesh, scratch)
            listed = scene.listed()
            self.assertEqual(pairs_of(mesh, scratch, 0, mesh.rows), listed, name)
            cut = random.Random(name).randrange(mesh.rows + 1)
            self.assertEqual(pairs_of(mesh, scratch, 0, cut) + pairs_of(mesh, scratch, cut, mesh.rows), listed, name)
            near = pairs_of(mesh, scratch, 0, mesh.rows, makhnodri.list_near_rows, makhnodri.count_near_rows)
            self.assertEqual([pair for pair in listed if pair in near], near, name)
            words = dict(scene.settled())
            self.assertTrue(all(words[pair] in (makhnodri.MISS, makhnodri.APART) for pair in listed if pair not in near), name)
            seen += len(listed)
        self.assertGreater(seen, 100)

    def test_an_order_changes_nothing(self):
        for name, scene in scenes():
            mesh, drawn = mesh_of(scene), random.Random(name)
            orders = [array.array("I", drawn.sample(range(count), count)) for count in (len(mesh.edges) // 2, len(mesh.triangles) // 3)]
            ordered = mesh_of(scene, edge_order=orders[0], triangle_order=orders[1])
            self.assertEqual(pairs_of(ordered, Scratch(), 0, mesh.rows), pairs_of(mesh, Scratch(), 0, mesh.rows), name)

    def test_more_vertices_than_a_scene_by_threads(self):
        mesh, needle = sheet(40, 30)
        self.assertGreater(len(mesh.positions), 6 * makhnodri.VERTEX_LIMIT)
        parts = [None] * 4

        def take(part):
            parts[part] = pairs_of(mesh, Scratch(), mesh.rows * part // 4, mesh.rows * (part + 1) // 4)

        threads = [threading.Thread(target=take, args=(part,)) for part in range(4)]
        for thread in threads:
            thread.start()
        for thread in threads:
            thread.join()
        joined = [pair for part in parts for pair in part]
        self.assertEqual(joined, pairs_of(mesh, Scratch(), 0, mesh.rows))
        self.assertTrue(any(pair.kind == makhnodri.PT and pair.first == needle for pair in joined))

    def test_refusals(self):
        mesh, scratch, told = sheet(3, 3)[0], Scratch(), array.array("Q", [7])
        for first, end, number in ((1, 0, 5), (0, mesh.rows + 1, 5)):
            with self.assertRaises(Refused) as refused:
                makhnodri.count_rows(mesh, scratch, first, end, told)
            self.assertEqual((refused.exception.number, refused.exception.count, told[0]), (number, None, 7))
        needed = makhnodri.count_rows(mesh, scratch, 0, mesh.rows, told)
        self.assertEqual(told[0], needed)
        short = array.array("Q", [9]) * (needed - 1)
        with self.assertRaises(Refused) as refused:
            makhnodri.list_rows(mesh, scratch, 0, mesh.rows, short)
        self.assertEqual((refused.exception.number, refused.exception.count, set(short) - {9}), (7, needed, set()))
        with self.assertRaises(Refused) as refused:
            makhnodri.count_rows(Mesh(mesh.positions, mesh.edges, mesh.triangles, None, [0, 0]), scratch, 0, 0)
        self.assertEqual(refused.exception.number, makhnodri.WRONG_ORDER)
        for given in (Mesh([0] * 5), Mesh([0] * 6, [0, 1]), Mesh([600000] + [0] * 5)):
            self.assertRaises(Refused, makhnodri.check_mesh, given, scratch)
        self.assertRaises(TypeError, makhnodri.count_rows, Scene(), scratch, 0, 0)
        self.assertRaises(TypeError, makhnodri.count_rows, Mesh(), None, 0, 0)
        self.assertRaises(TypeError, makhnodri.count_rows, Mesh(mesh.positions, array.array("H", [0, 1])), scratch, 0, 0)

    def test_pairs_are_kept_by_their_words(self):
        bits = {makhnodri.HIT: makhnodri.WANT_HITS, makhnodri.MISS: makhnodri.WANT_MISSES, makhnodri.TOUCH: makhnodri.WANT_TOUCHES, makhnodri.APART: makhnodri.WANT_APARTS}
        scratch, seen, left = Scratch(), 0, 0
        for name, scene in scenes():
            mesh, drawn, settled = mesh_of(scene), random.Random(name), scene.settled()
            wanted = sum(bit for bit in bits.values() if drawn.randrange(2))
            kept = [(pair, word) for pair, word in settled if bits[word] & wanted]
            totals = [sum(word == one for _, word in settled) for one in bits]
            entries, words = array.array("Q", [9] * (len(kept) + 1)), array.array("B", [9] * (len(kept) + 1))
            told = makhnodri.keep_rows(mesh, scratch, 0, mesh.rows, wanted, entries, words)
            self.assertEqual(told, (len(kept), len(settled), *totals), name)
            self.assertEqual([(Pair.of_mesh_entry(entry), word) for entry, word in zip(entries, words)][:-1], kept, name)
            self.assertEqual((entries[-1], words[-1]), (9, 9), name)
            near = makhnodri.keep_near_rows(mesh, scratch, 0, mesh.rows, wanted, entries, words)
            self.assertEqual((near.hits, near.touches), (told.hits, told.touches), name)
            if kept:
                with self.assertRaises(Refused) as refused:
                    makhnodri.keep_rows(mesh, scratch, 0, mesh.rows, wanted, entries[1:], words[:0])
                self.assertEqual((refused.exception.number, refused.exception.count), (7, len(kept)), name)
            seen, left = seen + len(kept), left + len(settled) - len(kept)
        self.assertGreater(min(seen, left), 50)
        self.assertRaises(OverflowError, makhnodri.keep_rows, Mesh(), scratch, 0, 0, 1 << 32, None, None)

    def test_contacts_are_kept_with_their_pairs(self):
        scratch, wanted, seen = Scratch(), makhnodri.WANT_HITS + makhnodri.WANT_TOUCHES, 0
        for name, scene in scenes():
            mesh = mesh_of(scene)
            try:
                found = scene.contacts()
            except Refused as refused:
                with self.assertRaises(Refused) as again:
                    makhnodri.keep_contacts(mesh, scratch, 0, mesh.rows, wanted, None, None, None)
                self.assertEqual((refused.number, again.exception.number), (16, 16), name)
                continue
            kept = [(pair, word, contact) for pair, word, contact in found if word in (makhnodri.HIT, makhnodri.TOUCH)]
            for call in (makhnodri.keep_contacts, makhnodri.keep_near_contacts):
                entries, words = array.array("Q", [9] * len(kept)), array.array("B", [9] * len(kept))
                contacts = array.array("I", [9] * 5 * len(kept))
                told = call(mesh, scratch, 0, mesh.rows, wanted, entries, words, contacts)
                self.assertEqual((told.count, told.hits), (len(kept), sum(word == makhnodri.HIT for _, word, _ in kept)), name)
                for place, (pair, word, contact) in enumerate(kept):
                    row = contacts[5 * place : 5 * place + 5]
                    self.assertEqual((Pair.of_mesh_entry(entries[place]), words[place]), (pair, word), name)
                    if contact is None:
                        self.assertEqual(list(row), [9] * 5, name)
                    else:
                        self.assertEqual((row[0], row[1], tuple(row[2 : 2 + len(contact.shares)])), (contact.piece, contact.k, contact.shares), name)
                        seen += 1
                if kept:
                    with self.assertRaises(Refused) as refused:
                        call(mesh, scratch, 0, mesh.rows, wanted, entries, words, contacts[1:])
                    self.assertEqual((refused.exception.number, refused.exception.count), (7, len(kept)), name)
        self.assertGreater(seen, 20)

    def test_edges_by_a_certificate(self):
        positions, triangles = sheet(4, 4)[0].positions, sheet(4, 4)[0].triangles
        corners = [tuple(triangles[at : at + 3]) for at in range(0, len(triangles), 3)]
        sides = [side for a, b, c in corners for side in ((a, b), (b, c), (c, a))]
        edges = sorted({(min(side), max(side)) for side in sides})
        number = {edge: place for place, edge in enumerate(edges)}
        mesh = Mesh(positions, [vertex for edge in edges for vertex in edge], triangles)
        lent = array.array("I", [number[min(side), max(side)] for side in sides])
        order = array.array("I", range(len(edges)))
        self.assertEqual(makhnodri.check_edges(mesh, lent, order, Scratch()), (makhnodri.EDGES_WHOLE, 0))
        lent[4] = (lent[4] + 1) % len(edges)
        self.assertEqual(makhnodri.check_edges(mesh, lent, order, Scratch()), (makhnodri.SIDE_BARE, 4))
        self.assertRaises(Refused, makhnodri.check_edges, mesh, lent[1:], order, Scratch())

    def test_entries_come_apart(self):
        number = makhnodri.mesh_entry(makhnodri.EE, 70000, 3)
        self.assertEqual((number, Pair.of_mesh_entry(number)), ((1 << 63) + (70000 << 32) + 3, (makhnodri.EE, 70000, 3)))

    def test_an_edge_through_a_triangle(self):
        positions = [0, 0, 0, 0, 0, 0, 4, 0, 0, 4, 0, 0, 0, 4, 0, 0, 4, 0, 1, 1, 3, 1, 1, 1, 1, 1, 1, 1, 1, -1]
        scene = Scene(positions, [3, 4], [0, 1, 2])
        self.assertEqual((makhnodri.pierced_at_start(scene, 0, 0), makhnodri.pierced_at_end(scene, 0, 0)), (False, True))
        self.assertRaises(Refused, makhnodri.pierced_at_end, scene, 1, 0)

    def test_other_arrays_are_lent(self):
        mesh, _ = sheet(5, 5)
        wanted = pairs_of(mesh, Scratch(), 0, mesh.rows)

        def hold(positions, edges, triangles, entries, told):
            count = makhnodri.list_rows(Mesh(positions, edges, triangles), Scratch(), 0, mesh.rows, entries, told)
            self.assertEqual((int(told[0]), [Pair.of_mesh_entry(int(number)) for number in entries[:count]]), (count, wanted))

        lists = (mesh.positions, mesh.edges, mesh.triangles)
        kinds = (ctypes.c_int32, ctypes.c_uint32, ctypes.c_uint32)
        hold(*((kind * len(given))(*given) for given, kind in zip(lists, kinds)), (ctypes.c_uint64 * 500)(), (ctypes.c_uint64 * 1)())
        with contextlib.suppress(ImportError):
            import numpy

            arrays = (numpy.array(given, dtype=kind) for given, kind in zip(lists, ("i4", "u4", "u4")))
            hold(*arrays, numpy.zeros(500, dtype="u8"), numpy.zeros(1, dtype="u8"))
