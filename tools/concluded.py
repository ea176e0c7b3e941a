"""Which records, relations and predicates of the meaning, of the theory and of the demands hold of something, as the theorems and the contracts say.

A definition that stands only among what theorems ask for can be emptied, and everything is still proved. So each must be concluded somewhere, by a
theorem, a value or a contract that does not ask for it itself, and that asks for nothing that is not shown in turn. What is asked for and what is
concluded is read off the signatures; a field of a record is concluded where the record is. A name counts as concluded wherever it stands in what a
signature gives, so this finds what is never given at all and does not weigh what it is given of. tools/shown.txt has those that no signature tells.
"""
import dataclasses
import functools
import re

import functions
import specs

LIST = specs.TOP / "tools/shown.txt"
OPENING, CLOSING = "({", ")}"


@dataclasses.dataclass
class Rule:
    """What is concluded, and what is asked for, each as places of definitions."""

    place: str
    asked: frozenset
    concluded: frozenset


def is_subject(crate):
    return crate in ("meaning", "theory", "demands") or crate.endswith("_demands")


# ---- signatures


def signature(one):
    """The type of a declaration, as it is written: what stands before its equations."""
    kept = []
    for line in one.text.splitlines():
        words = line.strip()
        if kept and (words.startswith("unfolding ") or re.match(rf"{re.escape(one.name)}(?: .*)?=(?: |$)", words)):
            break
        kept.append(words)
    return " ".join(kept).partition(" : ")[2]


def split_at(mark, text):
    """The parts of a text between the marks that stand in no bracket."""
    depth, parts, start = 0, [], 0
    for at, sign in enumerate(text):
        depth += (sign in OPENING) - (sign in CLOSING)
        if sign == mark and depth == 0:
            parts.append(text[start:at])
            start = at + 1
    return [*parts, text[start:]]


def groups(text):
    """Where the outermost round brackets of a text begin and end."""
    depth, start = 0, 0
    for at, sign in enumerate(text):
        depth += (sign == "(") - (sign == ")")
        if sign == "(" and depth == 1:
            start = at
        elif sign == ")" and depth == 0:
            yield start, at


def given_by(text):
    """What a type gives, with what is denied and what its parts in brackets ask for left out. An equivalence in brackets gives neither side."""
    last = re.sub(r"¬ (?:\([^()]*\)|\S+)", "", split_at("→", text)[-1])
    if "↔" in last:
        return ""
    found, start = "", 0
    for opening, closing in groups(last):
        found += last[start : opening + 1] + given_by(last[opening + 1 : closing]) + ")"
        start = closing + 1
    return found + last[start:]


def ways(text):
    """The ways in which a type can be used, as what it asks for and what it gives: an equivalence goes either way."""
    *asked, last = split_at("→", text)
    sides = split_at("↔", last)
    if len(sides) != 2:
        return [(" → ".join(asked), given_by(last))]
    return [(" → ".join([*asked, one]), given_by(other)) for one, other in (sides, sides[::-1])]


# ---- definitions


def is_public(one):
    return one.text.lstrip().split(" ")[0] == "pub" or " pub " in one.text.split(one.name)[0]


def is_former(one):
    """A record, a data type, or a definition whose values are types."""
    if one.kind in ("record", "data"):
        return True
    return one.kind in ("abbrev", "unfoldable") and bool(re.match(r"\s*Type\b", split_at("→", signature(one))[-1]))


@functools.cache
def formers():
    """Every definition of the house that gives types, by place."""
    return {one.place: one for one in specs.declared().values() if is_former(one)}


def for_proofs():
    """Those that theorems in proofs/ take from specs/. They are public for that, if for nothing else."""
    taken = {origin for module, source in specs.sources().items() if ".proofs." in module for origin in specs.uses_in(source)[0].values()}
    return {place for place, one in formers().items() if (one.module, one.name) in taken}


def stated():
    """Those that a statement names which others may use: what a public theorem says, a public definition, or the contract of a function."""
    public = [one for one in specs.declared().values() if one.kind not in ("struct", "enum") and is_public(one)]
    said = [named(one, f"{one.head} {one.text if one.kind in specs.DEFINING else signature(one)}") - {one.place} for one in public]
    rules = [rule_of_function(function) for function in functions.functions()]
    return frozenset().union(*said, *(rule.asked | rule.concluded for rule in rules))


def subjects():
    """Those that must be shown. One that is private is an aid of the proofs of its file, and so is one that is public for proofs alone."""
    aids = for_proofs() - stated()
    return sorted(place for place, one in formers().items() if is_subject(one.crate) and is_public(one) and place not in aids)


def named(one, text):
    """The places of those definitions that a text of a declaration names."""
    return frozenset(other.place for other in specs.named_by(specs.sources()[one.module], text, one.module) if other.place in formers())


# ---- rules


def rules_by(one, text, also=frozenset()):
    head = named(one, one.head) | also
    return [Rule(one.place, head | named(one, asked), named(one, given)) for asked, given in ways(text)]


def fields(one):
    """The types of a record's fields."""
    found = []
    for line in one.text.splitlines()[1:]:
        field = re.match(r" +(?:pub )?[^\s:]+ : (.*)", line)
        if field:
            found.append(field.group(1))
        elif found:
            found[-1] += " " + line.strip()
    return found


def body(one):
    """What an abbreviation stands for."""
    equation = re.search(rf"^\s*{re.escape(one.name)}(?: [^=\n]*)?=(.*)", one.text, re.M | re.S)
    return equation.group(1) if equation else ""


def rules_of(one):
    """A theorem or a value concludes its type; a record that holds has its fields, and an abbreviation what it stands for."""
    itself = frozenset({one.place})
    if one.kind == "record":
        return [rule for field in fields(one) for rule in rules_by(one, field, itself)]
    if one.kind == "abbrev" and is_former(one):
        return rules_by(one, body(one), itself)
    if one.kind in ("proof", "abbrev", "unfoldable") and not is_former(one):
        return rules_by(one, signature(one))
    return []


def rule_of_function(function):
    """A function that is proved leaves what it ensures, where what it requires is so."""
    source = (specs.TOP / function.file).read_text(encoding="utf-8")
    said = {"requires": "", "ensures": ""}
    for word, clause in function.clauses:
        said[word] = said.get(word, "") + " " + clause
    places = {
        word: frozenset(one.place for one in specs.named_by(source, text) if one.place in formers()) for word, text in said.items()
    }
    return Rule(function.full, places["requires"], places["ensures"])


def all_rules():
    found = [rule for one in specs.declared().values() for rule in rules_of(one) if one.kind not in ("struct", "enum")]
    return found + [rule_of_function(function) for function in functions.functions()]


# ---- what is shown


def spread(rules, shown):
    """Adds what follows from what is shown, each with the theorem that shows it, until nothing more does."""
    grew = True
    while grew:
        grew = False
        for rule in rules:
            new = [place for place in rule.concluded if place not in shown] if rule.asked <= shown.keys() else []
            shown.update({place: rule.place for place in new})
            grew = grew or bool(new)
    return shown


def listed():
    """What tools/shown.txt says: each definition with the theorem that shows it, or, under 'not yet shown', with none."""
    found, current = {"shown": {}, "not yet shown": {}}, "shown"
    for line in LIST.read_text(encoding="utf-8").splitlines():
        words = line.split()
        if line.startswith("# == "):
            current = line.removeprefix("# == ")
        elif words and not line.startswith("#"):
            found[current][words[0]] = words[1] if len(words) > 1 else ""
    return found["shown"], found["not yet shown"]
