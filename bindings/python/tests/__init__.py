"""The tests of the module; `python3 -m unittest discover -t bindings/python -s bindings/python/tests` in the top folder runs them."""

import array
import pathlib
import subprocess

TOP = pathlib.Path(__file__).resolve().parents[3]
SCENES = sorted((TOP / "scenes").rglob("*.scene"))


def independent(program, *words, text=b""):
    """What a program of compare/, which knows nothing of the library, prints."""
    answer = subprocess.run([TOP / "build/release" / program, *words], input=text, stdout=subprocess.PIPE, timeout=60, check=True)
    return answer.stdout


def triangle_and_point():
    """The lists of README's scene: a triangle at rest, and a point that falls through it."""
    positions = array.array("i", [0, 0, 0, 0, 0, 0, 4, 0, 0, 4, 0, 0, 0, 4, 0, 0, 4, 0, 1, 1, 1, 1, 1, -1])
    return positions, array.array("H"), array.array("H", [0, 1, 2]), array.array("H")
