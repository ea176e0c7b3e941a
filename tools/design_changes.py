#!/usr/bin/env python3
"""What the definitions and theorems of a tree say that they didn't in an older one: `tools/design_changes.py OLD [TREE]`. It compares the public declarations
of specs/ and those of the files right in proofs/, a theorem by its statement and a definition whole, and prints of each one that changed, moved or went
both sides. Binders, the head of a section and blanks count; comments and proofs don't.
"""
import argparse
import collections
import pathlib
import re

import specs


def said(one):
    """What a declaration says: a theorem's statement, with the head of its section; a definition whole."""
    text = one.text
    if one.kind == "proof":
        text = re.split(rf"\n\s*(?:unfolding\b.*\n\s*)?{re.escape(one.name)}(?=[\s(])", text)[0]
    return " ".join(f"{one.head} {text}".split())


def public(tree):
    """What each public declaration says, by its place: CRATE/FOLDER/File.name."""
    found = {}
    for folder in ("specs/**", "proofs"):
        for path in sorted(tree.glob(f"crates/*/{folder}/*.antt")):
            module = str(path.relative_to(tree / "crates").with_suffix(""))
            for one in specs.declarations_in(module, path.read_text(encoding="utf-8")):
                if " pub " in f" {one.text.splitlines()[0]} ":
                    found[f"{module}.{one.name}"] = said(one)
    return found


def main():
    arguments = argparse.ArgumentParser(description="Lists the public definitions and theorems that changed, moved or went.")
    arguments.add_argument("old", type=pathlib.Path)
    arguments.add_argument("tree", nargs="?", default=".", type=pathlib.Path)
    asked = arguments.parse_args()
    old, new = public(asked.old), public(asked.tree)
    places = collections.defaultdict(list)
    for place, words in new.items():
        places[place.rpartition(".")[2]].append((place, words))
    counts = collections.Counter()
    for place, words in old.items():
        now = new.get(place)
        elsewhere = [(other, there) for other, there in places[place.rpartition(".")[2]] if other not in old]
        same = next((other for other, there in elsewhere if there == words), None)
        if now == words:
            counts["the same"] += 1
        elif now is None and same:
            counts["moved"] += 1
            print(f"moved: {place} to {same}")
        elif now is None and not elsewhere:
            counts["gone"] += 1
            print(f"gone: {place}\n    - {words}")
        else:
            counts["changed"] += 1
            for other, there in [(place, now)] if now is not None else elsewhere:
                print(f"changed: {place}{'' if other == place else f', now {other}'}\n    - {words}\n    + {there}")
    print(f"{len(old)} then, {len(new)} now: " + ", ".join(f"{counts[kind]} {kind}" for kind in ("the same", "moved", "changed", "gone")))


if __name__ == "__main__":
    main()
