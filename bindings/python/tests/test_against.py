"""The module against the files in scenes/ and against the independent program of compare/, which decides from the documents alone."""

import array
import collections
import concurrent.futures
import pathlib
import random
import re
import tempfile
import unittest

import makhnodri
from makhnodri import APART, DEGENERATE, HIT, MISS, PT, TOUCH, Scene
from . import SCENES, TOP, independent

SEEDS = 120


def lines_of(call, rows, totals):
    """The lines that a program prints: those of a call, or the one line of its refusal."""
    try:
        found = call()
    except makhnodri.Refused as refused:
        return b"refused\t%d\t%d\n" % (refused.number, refused.carried)
    lines = [*rows(found), totals(found)]
    return "".join("\t".join(map(str, line)) + "\n" for line in lines).encode()


def report_by_calls(text):
    def totals(settled):
        words = collections.Counter(word for _, word in settled)
        return ["total", len(settled), *(words[word] for word in (HIT, MISS, TOUCH, APART))]

    def settled():
        scene, room, words = Scene.read(text), array.array("I", [0]) * 3072, bytearray(3072)
        count = makhnodri.settle_scene(scene, room, words)
        return [(makhnodri.Pair.of_entry(entry), makhnodri.Word(word)) for entry, word in zip(room[:count], words)]

    return lines_of(settled, lambda settled: ([*pair, word] for pair, word in settled), totals)


def contacts_by_calls(text):
    def rows(found):
        return ([*pair, contact.piece, contact.k, *contact.shares] for pair, _, contact in found if contact)

    def contacts():
        scene = Scene.read(text)
        found = scene.contacts()
        if len(found) > 3072:
            raise makhnodri.Refused(7, len(found))
        return found

    return lines_of(contacts, rows, lambda found: ["total", len(found), sum(contact is not None for *_, contact in found)])


def series_by_calls(text):
    try:
        told = makhnodri.series(text)
    except makhnodri.Refused as refused:
        return b"refused\t%d\t%d\n" % (refused.number, refused.carried)
    lines = [["hit", hit.step, *hit.pair] for hit in told.log]
    lines += [["later", told.later], ["total", *told[2:7]], ["first", told.first]]
    return "".join("\t".join(map(str, line)) + "\n" for line in lines).encode()


def claims_by_calls(text, claims):
    try:
        answers = Scene.read(text).claims(claims)
    except makhnodri.Refused as refused:
        return b"refused\t%d\t%d\n" % (refused.number, refused.carried)
    return b"".join(b"yes\n" if answer else b"no\n" for answer in answers)


def made(seed):
    """A scene text from a seed: on a small grid, some of it at rest or flat, some sewn."""
    pick = random.Random(seed)
    reach, still, flat = pick.choice((1, 2, 5, 1000, 262143)), pick.random() < 0.4, pick.random() < 0.3
    vertices = []
    for _ in range(pick.randint(5, 12)):
        start = [pick.randint(-reach, reach) for _ in range(3)]
        end = list(start) if still or pick.random() < 0.3 else [pick.randint(-reach, reach) for _ in range(3)]
        if flat:
            start[2] = end[2] = 0
        vertices.append(start + end)
    count = len(vertices)
    edges = [pick.sample(range(count), 2) for _ in range(pick.randint(0, 8))]
    triangles = [pick.sample(range(count), 3) for _ in range(pick.randint(0, 6))]
    seams = []
    if pick.random() < 0.3:
        vertices.append(list(vertices[0]))
        seams = [[count, 0]]
        triangles.append([count, 1, 2])
        edges.append([3, count])
    lists = zip("vetw", (vertices, edges, triangles, seams))
    return "".join(f"{letter}\t" + "\t".join(map(str, record)) + "\n" for letter, records in lists for record in records).encode()


def pieces_by_explaining(text):
    """The words of the pieces of each listed pair, and the weights of a hit or a touch, by the independent program."""
    found, pair = {}, None
    for line in independent("explain", text=text).decode().splitlines():
        piece = re.match(r"  piece \d: (\w+)", line)
        if piece:
            weights = re.search(r"weights (.*) of .* against (.*) of", line) if piece.group(1) in ("hit", "touch") else None
            found[pair].append((piece.group(1), weights and ", ".join(weights.groups()).split(", ")))
        elif line.startswith(("pt ", "ee ")):
            pair = line.split(":")[0]
            found[pair] = []
    return found


class Files(unittest.TestCase):
    def test_every_scene_has_its_report(self):
        reports = 0
        for scene in SCENES:
            wanted = scene.with_suffix(".report")
            if wanted.exists():
                reports += 1
                text = scene.read_bytes()
                self.assertEqual(makhnodri.report(text), wanted.read_bytes(), scene)
                self.assertEqual(report_by_calls(text), wanted.read_bytes(), scene)
        self.assertGreater(reports, 30)

    def test_every_scene_has_its_contacts(self):
        files = [scene for scene in SCENES if scene.with_suffix(".contacts").exists()]
        self.assertGreater(len(files), 5)
        for scene in files:
            self.assertEqual(contacts_by_calls(scene.read_bytes()), scene.with_suffix(".contacts").read_bytes(), scene)

    def test_every_claim_has_its_answer(self):
        files = [scene for scene in SCENES if scene.with_suffix(".claims").exists()]
        self.assertGreater(len(files), 3)
        for file in files:
            printed = claims_by_calls(file.read_bytes(), file.with_suffix(".claims").read_bytes())
            self.assertEqual(printed, file.with_suffix(".answers").read_bytes(), file)


class ObjFiles(unittest.TestCase):
    def test_every_pair_has_its_scene(self):
        starts = sorted((TOP / "scenes/obj").glob("*-start.obj"))
        self.assertGreater(len(starts), 3)
        for start in starts:
            name = start.name.removesuffix("-start.obj")
            end, report = (start.with_name(name + ending) for ending in ("-end.obj", ".report"))
            try:
                scene = Scene.import_obj(start.read_bytes(), end.read_bytes())
            except makhnodri.Refused as refused:
                told = (b"refused", b"%d" % refused.number, b"%d" % refused.carried) + ((refused.file.encode(),) if refused.file else ())
                self.assertEqual(b"\t".join(told) + b"\n", report.read_bytes(), name)
            else:
                self.assertEqual(scene.saved(), start.with_name(name + ".scene").read_bytes(), name)
                self.assertEqual(makhnodri.report(scene.saved()), report.read_bytes(), name)

    def test_boxes(self):
        files = [(TOP / f"scenes/obj/cuff-{which}.obj").read_bytes() for which in ("start", "end")]
        buffers = [array.array(code, [7]) * length for code, length in zip("iHHHi", (3072, 2048, 1536, 1024, 12290))]
        counts = array.array("Q", [7] * 4)
        makhnodri.import_scene(*files, *buffers, counts)
        positions, edges, triangles, seams, boxes = buffers
        vertices, sides, faces, sewn = counts
        self.assertEqual((vertices, sides, faces, sewn), (7, 8, 3, 0))
        parts = [(vertex,) for vertex in range(vertices)]
        parts += [tuple(edges[2 * i : 2 * i + 2]) for i in range(sides)] + [tuple(triangles[3 * i : 3 * i + 3]) for i in range(faces)]
        wanted = []
        for part in parts:
            places = [[positions[6 * v + at + axis] for v in part for at in (0, 3)] for axis in range(3)]
            wanted += [min(places[axis]) for axis in range(3)] + [max(places[axis]) for axis in range(3)]
        self.assertEqual(list(boxes), wanted + [7] * (12290 - len(wanted)))
        self.assertEqual(list(seams), [7] * 1024)


class Series(unittest.TestCase):
    def test_every_series_has_its_log(self):
        files = sorted((TOP / "scenes").rglob("*.series"))
        self.assertGreater(len(files), 10)
        for file in files:
            self.assertEqual(series_by_calls(file.read_bytes()), file.with_suffix(".log").read_bytes(), file)

    def test_a_scene_is_a_series_of_one_step(self):
        for scene in SCENES:
            text = scene.read_bytes()
            self.assertEqual(series_by_calls(text), independent("compare-series", "--exact", text=text), scene)

    def test_the_last_step_is_a_scene_with_its_list(self):
        told = makhnodri.series((TOP / "scenes/series/sleeve.series").read_bytes())
        self.assertEqual((told.first, told.log[0].pair, len(told.log)), (12, (PT, 30, 11), makhnodri.LOG_LIMIT))
        self.assertEqual(told.last.listed(), told.pairs)

    def test_a_refusal_carries_its_line_or_count(self):
        for name, number, line, count in (("ends-too-soon", 13, 13, None), ("seam-apart", 15, 20, None), ("heap", 7, None, 3080)):
            with self.assertRaises(makhnodri.Refused) as caught:
                makhnodri.series((TOP / f"scenes/series/refused-{name}.series").read_bytes())
            self.assertEqual((caught.exception.number, caught.exception.line, caught.exception.count), (number, line, count))


class Seeds(unittest.TestCase):
    def test_reports(self):
        words = collections.Counter()
        for seed in range(SEEDS):
            text = made(seed)
            wanted = independent("exact-report", text=text)
            self.assertEqual(report_by_calls(text), wanted, text)
            words.update(line.split(b"\t")[-1] for line in wanted.splitlines()[:-1])
        for word in (b"hit", b"miss", b"touch", b"apart"):
            self.assertGreater(words[word], 50)

    def test_saving(self):
        for seed in range(SEEDS):
            text = made(seed)
            self.assertEqual(makhnodri.Scene.read(text).saved(), text)

    def test_lists_of_ones_own(self):
        for seed in range(SEEDS):
            scene = makhnodri.Scene.read(made(seed))
            settled = scene.settled()
            turned = [pair for pair, _ in reversed(settled)]
            self.assertEqual(scene.settle_pairs(turned), [word for _, word in reversed(settled)], seed)

    def test_contacts(self):
        met = 0
        for seed in range(SEEDS):
            text = made(seed)
            wanted = independent("compare-contacts", "--exact", text=text)
            self.assertEqual(contacts_by_calls(text), wanted, text)
            met += wanted.count(b"\n") - 1
        self.assertGreater(met, 100)

    def test_pairs_and_pieces(self):
        """Each way to ask for a word: of a pair and of a piece, in three words and in four."""
        pairs = 0
        for seed in range(0, SEEDS, 3):
            text = made(seed)
            scene = Scene.read(text)
            wanted = pieces_by_explaining(text)
            self.assertEqual([str(pair) for pair in scene.listed()], list(wanted))
            for pair, settled in scene.settled():
                pairs += 1
                ask = {name: getattr(makhnodri, f"{name}_{pair.kind}") for name in ("judge", "settle")}
                ask |= {f"{name}_piece": getattr(makhnodri, f"{name}_{pair.kind}_piece") for name in ("judge", "settle")}
                count = 3 if pair.kind == PT else 4
                four = [ask["settle_piece"](scene, pair.first, pair.second, piece) for piece in range(count)]
                self.assertEqual([str(word) for word in four], [word for word, _ in wanted[str(pair)]], (text, pair))
                three = [ask["judge_piece"](scene, pair.first, pair.second, piece) for piece in range(count)]
                self.assertEqual(three, [DEGENERATE if word in (TOUCH, APART) else word for word in four])
                self.assertEqual(ask["settle"](scene, pair.first, pair.second), settled)
                self.assertEqual(settled, next(word for word in (HIT, TOUCH, APART, MISS) if word in four))
                self.assertEqual(ask["judge"](scene, pair.first, pair.second), DEGENERATE if settled in (TOUCH, APART) else settled)
                word, contact = scene.contact(*pair)
                self.assertEqual((word, contact is None), (settled, settled != HIT))
        self.assertGreater(pairs, 300)

    def test_claims(self):
        answers = collections.Counter()
        with tempfile.TemporaryDirectory() as folder:
            scene_file, claims_file = (pathlib.Path(folder) / name for name in ("scene", "claims"))
            for seed in range(0, SEEDS, 2):
                text, pick = made(seed), random.Random(seed)
                claims = b""
                for pair, pieces in pieces_by_explaining(text).items():
                    for piece, (_, weights) in enumerate(pieces):
                        weights = weights if weights and pick.random() < 0.8 else pick.choices("012", k=6)
                        claims += "\t".join((*pair.split(), str(piece), *weights)).encode() + b"\n"
                claims = claims[: claims[:32768].rfind(b"\n") + 1]
                scene_file.write_bytes(text)
                claims_file.write_bytes(claims)
                wanted = independent("compare-claims", "--answers", scene_file, claims_file)
                self.assertEqual(claims_by_calls(text, claims), wanted, (text, claims))
                answers.update(wanted.split())
        self.assertGreater(answers[b"no"], 100)
        self.assertGreater(answers[b"yes"], 100)

    def test_threads_at_once(self):
        """Four threads over the same scene, each with buffers of its own, while the interpreter's lock is not held."""
        scene = Scene.read((TOP / "scenes/patch-on-sleeve.scene").read_bytes())
        wanted = scene.settled()
        self.assertGreater(len(wanted), 100)
        with concurrent.futures.ThreadPoolExecutor(4) as threads:
            for found in threads.map(lambda _: scene.settled(), range(40)):
                self.assertEqual(found, wanted)

    def test_contacts_as_floats(self):
        scene = Scene.read((TOP / "scenes/frozen.scene").read_bytes())
        contacts = [(pair, contact) for pair, _, contact in scene.contacts() if contact]
        self.assertGreater(len(contacts), 0)
        for pair, contact in contacts:
            numbers = array.array("I", [9] * 6)
            self.assertEqual(getattr(makhnodri, f"contact_{pair.kind}")(scene, pair.first, pair.second, numbers), HIT)
            self.assertEqual((contact.piece, contact.k, contact.shares), (numbers[0], numbers[1], tuple(numbers[2 : 2 + len(contact.shares)])))
            self.assertEqual(numbers[5], 9)
            self.assertEqual((contact.time * 2**20, contact.time), (contact.k, makhnodri.contact_time(numbers)))
            self.assertEqual(contact.parts, tuple(makhnodri.contact_share(numbers, place) for place in range(len(contact.shares))))
            self.assertEqual(len(contact.shares), 3 if pair.kind == PT else 2)

    def test_played_backwards_and_back(self):
        scene = Scene.read((TOP / "scenes/training/backwards.scene").read_bytes())
        turned = Scene(*(array.array(one.typecode, one) for one in (scene.positions, scene.edges, scene.triangles)))
        makhnodri.turn_scene(turned.positions, turned.edges, turned.triangles)
        self.assertNotEqual(turned.positions, scene.positions)
        self.assertEqual([word for _, word in turned.settled() if word == HIT], [word for _, word in scene.settled() if word == HIT])
        makhnodri.turn_scene(turned.positions, turned.edges, turned.triangles)
        self.assertEqual((turned.positions, turned.edges, turned.triangles), (scene.positions, scene.edges, scene.triangles))

    def test_box_tests_and_seams(self):
        scene = Scene.read((TOP / "scenes/sleeve-sewn.scene").read_bytes())
        counted, listed = array.array("Q", [0]), array.array("Q", [0])
        room = array.array("I", [0]) * 99
        self.assertEqual(makhnodri.count_pairs(scene, counted), makhnodri.list_pairs(scene, room, listed))
        self.assertEqual(counted, listed)
        self.assertGreater(counted[0], 0)
        first, second = scene.seams[:2]
        self.assertEqual((makhnodri.stands_for(scene, first), makhnodri.stands_for(scene, second)), (second, second))
        self.assertEqual(makhnodri.stands_for(Scene(), 4), 4)
