"""docs/PROMISES.md as a text: each public function of crates/ with its comment and its contract, what docs/promises/CRATE.txt says of it, and the
first lines of the edits that change it. tools/promises writes the page, .ci/after/10-promises holds it.

docs/promises/CRATE.txt has a paragraph for each function: its name, then lines `  word: said`, which go on in lines further in. The words are

    words   what it does, where the comment above it does not say as much as a caller wants to know
    called  by integrators, where they may call it: then it has no `requires`
    laws    the definitions and theorems that tie the promise to the meaning
    fixed   how two results that meet the promise are one: `equation`, or a theorem `crate/File.name`
    open    what the promise leaves open, and why; 'Exceptions' at the end of the page has all of these
    wrong   two programs or more that do not meet it, parted by `; `
    edits   edits that show it and stand elsewhere
    caught  where a mistake in it is caught

A paragraph `(crate)` with `about` stands in front of the crate's functions.
"""
import functools
import re
import textwrap

import functions
from functions import TOP

WIDTH = 160
DATA = TOP / "docs/promises"
PAGE = TOP / "docs/PROMISES.md"
WORDS = ("about", "words", "called", "laws", "fixed", "open", "wrong", "edits", "caught")


def entries_in(text):
    """The paragraphs of a data file: each function's name with what is said of it, by its words."""
    found, said, word = {}, None, None
    for line in text.splitlines():
        begun = re.match(r"  (\w+): (.*)", line)
        if re.match(r"\S", line):
            said = found.setdefault(line.strip(), {})
        elif begun:
            word = begun.group(1)
            said[word] = begun.group(2).strip()
        elif line.strip():
            said[word] += " " + line.strip()
    return found


@functools.cache
def entries():
    """What the data files say of each function, by crate and by its name within the crate."""
    return {(file.stem, name): said for file in sorted(DATA.glob("*.txt")) for name, said in entries_in(file.read_text(encoding="utf-8")).items()}


def inner_name(function):
    return function.full.removeprefix(function.crate + "::")


def shown(crate):
    """The functions of a crate that have an entry: the public ones, and the `main` of a program."""
    of_crate = [one for one in functions.functions() if one.crate == crate]
    return [one for one in of_crate if one.public or (one.name == "main" and one.file.endswith("src/main.rt"))]


def entry_of(function):
    return entries().get((function.crate, inner_name(function)), {})


def wrong_programs(said):
    return [one.strip() for one in said.get("wrong", "").split("; ") if one.strip()]


# ---- edits


def changes_in(text):
    """The file and the old words of each change of an edit."""
    file, found = "", []
    for line in text.splitlines():
        if line.startswith("file: "):
            file = line.removeprefix("file: ").strip()
        elif line.startswith("old: "):
            found.append((file, line.removeprefix("old: ")))
    return found


def words_of(text):
    """What an edit does, as its first line says; nothing where its label says it."""
    first = text.splitlines()[0]
    return "" if first.startswith("file: ") else first.lstrip("# ").rstrip(".")


@functools.cache
def edits(crate):
    """The edits of a crate: the label, what it does, and which functions it changes."""
    found = []
    for edit in sorted((TOP / "crates" / crate / "must-fail").glob("*.edit")):
        text = edit.read_text(encoding="utf-8")
        changed = [
            one.full
            for one in functions.functions()
            for file, old in changes_in(text)
            if one.file == f"crates/{crate}/{file}" and old.strip() in one.body
        ]
        found.append((edit.stem, words_of(text), set(changed)))
    return found


def told(crate, found):
    """The edits in words, each with its name: by its label in its own crate, by its path elsewhere."""
    names = [(f"`{label}`" if home == crate else f"crates/{home}/must-fail/{label}", words) for home, label, words in found]
    return "; ".join(f"{words} ({name})" if words else name for name, words in names)


def own_edits(function):
    return [(function.crate, label, words) for label, words, changed in edits(function.crate) if function.full in changed]


def cited_edits(said):
    """Those that an entry names by their paths. One that is not there has no words, and .ci/after/10-promises is red."""
    paths = re.findall(r"crates/(\w+)/must-fail/([\w-]+)", said.get("edits", ""))
    words = {(home, label): words for home, _ in paths for label, words, _ in edits(home)}
    return [(home, label, words.get((home, label), "?")) for home, label in paths]


def edits_of(function):
    cited = cited_edits(entry_of(function))
    return [*own_edits(function), *(edit for edit in cited if edit not in own_edits(function))]


def other_edits(crate):
    """The edits of a crate that none of its functions' entries shows."""
    there = {edit for function in shown(crate) for edit in edits_of(function)}
    return [(crate, label, words) for label, words, _ in edits(crate) if (crate, label, words) not in there]


# ---- lines


def wrapped(words, first="", later=""):
    """The words in lines of the page's width; what stands in backquotes stays in one line."""
    kept = re.sub(r"`[^`]*`", lambda quoted: quoted.group().replace(" ", "\0"), words)
    lines = textwrap.wrap(kept, WIDTH, initial_indent=first, subsequent_indent=later, break_long_words=False, break_on_hyphens=False)
    return [line.replace("\0", " ") for line in lines]


def sentence(words):
    return words[:1].upper() + words[1:] + ("" if words.endswith(".") else ".")


def fixed_notes(said):
    how = said.get("fixed")
    notes = ["Fixed: the promise is an equation."] if how == "equation" else [sentence(f"fixed by {how}")] if how else []
    return notes + ([sentence(f"open: {said['open']}")] if "open" in said else [])


def notes_on(function):
    """The lines of a list under a function's contract."""
    said = entry_of(function)
    notes = fixed_notes(said)
    notes += [sentence("meaning: " + said["laws"])] if "laws" in said else []
    notes.append(sentence("wrong: " + "; ".join(wrong_programs(said))))
    shows = edits_of(function)
    notes += [sentence("edits that are refused: " + told(function.crate, shows))] if shows else []
    notes += [sentence("caught " + said["caught"])] if "caught" in said else []
    return [line for note in notes for line in wrapped(note, "- ", "  ")]


def contract_of(function):
    clauses = [line for word, words in function.clauses for line in wrapped(f"{word} {words}", "", "    ")]
    return ["```", *clauses, "```", ""] if clauses else ["No clause: it is safe and it ends.", ""]


def comment_of(function):
    if function.name != "main":
        return function.comment
    lines = (TOP / function.file).read_text(encoding="utf-8").splitlines()
    return functions.comment_above(lines, next((k for k, line in enumerate(lines) if not line.startswith("//")), 0))


def function_lines(function):
    mark = " (integrators call it)" if is_called(function) else ""
    told = [words for words in (comment_of(function), entry_of(function).get("words", "")) if words]
    lines = [line for words in told for line in [*wrapped(words), ""]]
    return [f"#### `{function.full}`{mark}", "", *lines, *contract_of(function), *notes_on(function), ""]


def is_called(function):
    return function.exported or "called" in entry_of(function)


def crate_lines(crate):
    said = entries().get((crate, "(crate)"), {})
    others = other_edits(crate)
    if not (shown(crate) or said or others):
        return []
    lines = [f"### {crate}", ""]
    lines += [*wrapped(said["about"]), ""] if "about" in said else []
    lines += [*wrapped(sentence("edits of its inner functions and its laws: " + told(crate, others))), ""] if others else []
    return lines + [line for function in shown(crate) for line in function_lines(function)]


def room_lines(title, crates):
    return [f"## {title}", ""] + [line for crate in crates for line in crate_lines(crate)]


def exceptions():
    """What promises leave open, each once, with the functions that leave it open."""
    found = {}
    for function in (function for crate in functions.crates() for function in shown(crate)):
        said = entry_of(function)
        if "open" in said:
            found.setdefault(said["open"], []).append(f"`{function.full}`")
    rows = [wrapped(f"{', '.join(names)}: {sentence(words)}", "- ", "  ") for words, names in found.items()]
    return ["## Exceptions: what a promise does not fix", "", *(line for row in rows for line in row)]


def page():
    front = (DATA / "front.md").read_text(encoding="utf-8").rstrip().splitlines()
    rooms = [line for title, crates in functions.rooms() for line in room_lines(title or "Crates", crates)]
    return "\n".join([*front, "", *rooms, *exceptions()]) + "\n"
