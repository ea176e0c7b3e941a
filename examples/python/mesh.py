"""A mesh of any size, from memory: a sheet of cloth falls on a bar, frame after frame, and the picture is frozen at the first contact. Threads take
stretches of rows, each with scratch of its own; while the library works, they go on side by side. It prints what examples/c/mesh.c prints.

    PYTHONPATH=bindings/python python3 examples/python/mesh.py 60 2
"""

import array
import concurrent.futures
import sys

import makhnodri

STEP, FRAMES, FALL = 100, 40, 70


def cloth(side):
    """A sheet of side x side vertices over a bar, a triangle that stands upright and stays where it is."""
    edges, triangles = array.array("I"), array.array("I")
    for y in range(side):
        for x in range(side):
            v, below = side * y + x, side * y + x + side
            if x + 1 < side:
                edges.extend((v, v + 1))
            if y + 1 < side:
                edges.extend((v, below))
            if x + 1 < side and y + 1 < side:
                edges.extend((v + 1, below))
                triangles.extend((v, v + 1, below, v + 1, below + 1, below))
    bar = side * side
    edges.extend((bar, bar + 1, bar + 1, bar + 2, bar + 2, bar))
    triangles.extend((bar, bar + 1, bar + 2))
    return edges, triangles


def place(side, v, frame):
    """Where vertex v stands at the end of a frame; the sheet hangs through in the middle."""
    x, y, half = v % side, v // side, side // 2
    if v >= side * side:
        return -STEP if v == side * side else STEP * side + STEP, STEP * half + 33, 5 if v < side * side + 2 else -2000
    return STEP * x, STEP * y, 1000 - FALL * frame + ((x - half) ** 2 + (y - half) ** 2) * 60 // side


def first_hit(mesh, scratch, first, end):
    """What is hit first in these rows, by its time and on a tie by its entry. Near rows miss no hit, and on falling cloth they are few."""
    count = makhnodri.count_near_rows(mesh, scratch, first, end)
    entries, words, contacts = array.array("Q", bytes(8 * count)), bytearray(count), array.array("I", bytes(20 * count))
    makhnodri.contact_near_rows(mesh, scratch, first, end, entries, words, contacts)
    hits = (i for i in range(count) if words[i] == makhnodri.HIT)
    return min(((contacts[5 * i + 1], entries[i], contacts[5 * i : 5 * i + 5]) for i in hits), default=None)


def main(side=60, threads=2):
    edges, triangles = cloth(side)
    vertices = side * side + 3
    mesh = makhnodri.Mesh(array.array("i", bytes(24 * vertices)), edges, triangles)
    print(f"{vertices} vertices, {len(edges) // 2} edges, {len(triangles) // 3} triangles")
    scratches = [makhnodri.Scratch() for _ in range(threads)]
    cuts = [mesh.rows * i // threads for i in range(threads + 1)]
    with concurrent.futures.ThreadPoolExecutor(threads) as pool:
        for frame in range(1, FRAMES + 1):
            mesh.positions = array.array("i", (n for v in range(vertices) for at in (frame - 1, frame) for n in place(side, v, at)))
            found = list(pool.map(lambda i: first_hit(mesh, scratches[i], cuts[i], cuts[i + 1]), range(threads)))
            if any(found):
                k, entry, contact = min(hit for hit in found if hit)
                pair = makhnodri.Pair.of_mesh_entry(entry)
                shares = " ".join(f"{makhnodri.part(share):.6f}" for share in contact[2:])
                print(f"frame {frame}, at {makhnodri.part(k):.6f} of it: {pair}, piece {contact[0]}, shares {shares}")
                return
    print("no contact")


if __name__ == "__main__":
    words = sys.argv[1:]
    if len(words) > 2 or not all(word.isdecimal() and int(word) > least for word, least in zip(words, (1, 0))):
        print("usage: mesh.py [SIDE [THREADS]]", file=sys.stderr)
        sys.exit(2)
    main(*map(int, words))
