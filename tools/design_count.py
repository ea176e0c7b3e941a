#!/usr/bin/env python3
"""Counts the places of docs/DESIGN-PASS.md in a tree: `tools/design_count.py [TREE]` prints a table of counts, with `--list` a line a place instead, which
is `PART CRATE FILE:LINE NAME` and what it shares with others or is about. Sources are read without comments and strings.

A point has parts, 1a, 1b and so on; what each takes for a place stands at its function below. A function or a type stands in a part once, a loop for itself.
"""
import argparse
import collections
import dataclasses
import pathlib
import re

import specs

TOKEN = re.compile(r"[^\W\d]\w*|\d\w*|::|->|=>|\.\.=?|[<>=!]=|[-+*/%&|^]=|&&|\|\||\S")
WORD = re.compile(r"[^\W\d]\w*$")
CLAUSES = {"requires", "ensures", "decreases"}
INTEGERS = {"u8", "u16", "u32", "u64", "u128", "usize", "i8", "i16", "i32", "i64", "i128", "isize"}
CLOSING = {"(": ")", "[": "]", "{": "}"}


# ---- reading


def bare(source):
    """The source with each comment, and what stands between quotes, made blank: lines stay where they are."""
    quoted = r'b?r(#*)".*?"\1|b?"(?:\\.|[^"\\])*"|b?\'(?:\\.[^\']*|[^\'\\])\''
    return re.sub(rf"//[^\n]*|/\*.*?\*/|(?<!\w)(?:{quoted})", lambda found: blank(found.group()), source, flags=re.S)


def blank(text):
    return "".join(letter if letter == "\n" else " " for letter in text) if text[0] == "/" else '"' + re.sub(r"[^\n]", " ", text[1:-1]) + '"'


def tokens_of(source):
    line, last, words, lines = 1, 0, [], []
    for found in TOKEN.finditer(source):
        line += source.count("\n", last, found.start())
        last = found.start()
        words.append(found.group())
        lines.append(line)
    return words, lines


def closed(words, at):
    """The place of the bracket that closes the one at a place."""
    opening, closing, depth = words[at], CLOSING[words[at]], 0
    for place in range(at, len(words)):
        depth += (words[place] == opening) - (words[place] == closing)
        if depth == 0:
            return place
    return len(words) - 1


def parted(words, by=","):
    """The parts of a row, between commas that stand in no brackets."""
    found, depth = [[]], 0
    for word in words:
        depth += (word in "([{<") - (word in ")]}>") if len(word) == 1 else 0
        if word == by and depth == 0:
            found.append([])
        else:
            found[-1].append(word)
    return [part for part in found if part]


@dataclasses.dataclass
class Function:
    crate: str
    file: str
    line: int
    name: str
    parameters: list  # (name, type)
    result: str
    requires: list  # words
    ensures: list
    body: list  # words, and in `lines` the line of each
    lines: list
    of_trait: str  # the trait of its impl block, or ''
    exported: bool = False  # to C


@dataclasses.dataclass
class Type:
    crate: str
    file: str
    line: int
    name: str
    word: str  # enum or struct
    parts: list  # words of each variant or field
    derives: set


def parameter_of(words):
    """The name and type of a parameter: lifetimes, and the `mut` of a name, are left out."""
    words = re.sub(r"' \w+ ", "", " ".join(words)).removeprefix("mut ").split()
    return (words[0], "".join(words[2:])) if ":" in words else ("self", "".join(words))


def function_at(crate, file, words, lines, at, owner, of_trait):
    opening = next(place for place in range(at, len(words)) if words[place] == "(")
    behind = closed(words, opening)
    place, result, said = behind + 1, [], {"requires": [], "ensures": []}
    while words[place] not in ("{", ";"):
        if words[place] in CLAUSES or words[place] == "=":  # a clause may have a name before its brace
            inside = words.index("{", place) + 1
            ending = closed(words, inside - 1)
            said.get(words[place], []).extend(words[inside:ending])
            place = ending + 1
        else:
            behind_one = (closed(words, place) if words[place] in "[(" else place) + 1
            result += words[place:behind_one]
            place = behind_one
    ending = closed(words, place) if words[place] == "{" else place
    parameters = [parameter_of(part) for part in parted(words[opening + 1 : behind])]
    name = f"{owner}::{words[at + 1]}" if owner else words[at + 1]
    result = "".join(result).removeprefix("->")
    body = [owner if word == "Self" and owner else word for word in words[place + 1 : ending]]
    exported = "extern" in words[max(0, at - 4) : at]
    return Function(crate, file, lines[at], name, parameters, result, *said.values(), body, lines[place + 1 : ending], of_trait, exported)


def impl_of(words):
    """The trait and the type of an impl block, each by its last name; no trait is ''."""
    plain = " ".join(word for part in parted(words, "for") for word in ["for", *part])
    plain = re.sub(r" where .*", "", plain)
    while re.search(r"<[^<>]*>", plain):
        plain = re.sub(r"<[^<>]*>", "", plain)
    names = [re.findall(r"\w+", side) for side in plain.split("for ") if side.strip()]
    return ("" if len(names) < 2 else names[0][-1]), names[-1][-1] if names and names[-1] else ""


def type_at(crate, file, words, lines, at):
    opening = next(place for place in range(at, len(words)) if words[place] in "{;(")
    parts = parted(words[opening + 1 : closed(words, opening)]) if words[opening] != ";" else []
    before = " ".join(words[max(0, at - 60) : at])
    derives = re.search(r"# \[ derive \( ([^\]]*) \) \](?: # \[[^\]]*\])*(?: pub(?: \( crate \))?)?$", before)
    parts = [[word for word in part if word != "pub"] for part in parts]
    return Type(crate, file, lines[at], words[at + 1], words[at], parts, set(re.findall(r"\w+", derives.group(1) if derives else "")))


def read(tree):
    """Every function and every type of crates/*/src."""
    functions, types = [], []
    for path in sorted(pathlib.Path(tree).glob("crates/*/src/**/*.rt")):
        file = str(path.relative_to(tree))
        crate = file.split("/")[1]
        words, lines = tokens_of(bare(path.read_text(encoding="utf-8")))
        owner, of_trait, end = "", "", -1
        for at, word in enumerate(words[:-1]):
            if word == "impl" and at > end and words[at - 1] in "};]":
                opening = words.index("{", at)
                (of_trait, owner), end = impl_of(words[at + 1 : opening]), closed(words, opening)
            owner, of_trait = (owner, of_trait) if at <= end else ("", "")
            named = WORD.match(words[at + 1])
            if word == "fn" and named:
                functions.append(function_at(crate, file, words, lines, at, owner, of_trait))
            if word in ("enum", "struct") and named and words[at - 1] in ("pub", "]", "}", ";", ")"):
                types.append(type_at(crate, file, words, lines, at))
    return functions, types


# ---- 1: own enums of the shape of Option or Result, flags beside values, numbers for kinds or refusals

CHOICES = {"Kind", "RowPairs", "Frame", "WhichFile", "Asked", "Sort"}  # enums that say which of some things is meant or done
NOTHING = {"Bad", "Failed", "Good", "NoWord", "Nowhere"}  # variants that carry nothing but that
FLAGS = {"found", "held", "stays"}


def option_or_result(one):
    """Two variants, one of which carries nothing; or one that carries a refusal or a fault, or has a name that says so. A refusal itself is none."""
    empty = [part for part in one.parts if len(part) == 1]
    carries = any(re.search(r"Refus|Fault|Error", word) for part in one.parts for word in part[1:])
    named = any(part[0] in NOTHING for part in one.parts)
    shaped = len(one.parts) == 2 and len(empty) == 1
    return one.word == "enum" and not re.search(r"Refus|Fault$|Error$", one.name) and (carries or named or shaped)


def flag_beside(parameters):
    """A flag right behind the number that counts only where it is set."""
    pairs = zip(parameters, parameters[1:])
    return any(number in INTEGERS and flag in FLAGS and word == "bool" for (_, number), (flag, word) in pairs)


def flag_in(one):
    return one.word == "struct" and len(one.parts) > 1 and any(part[0] in FLAGS and part[-1] == "bool" for part in one.parts)


def number_for(function, enums):
    """The enum that a function turns into a number or makes of one: a refusal or an answer with anything beside it, another one alone."""
    told = [word for _, word in function.parameters if word in enums]
    alone = len(function.parameters) == 1
    if told and function.result in INTEGERS and (alone or re.search(r"Refusal$|Answer$", told[0])):
        return told[0]
    return function.result if alone and function.result in enums and function.parameters[0][1] in INTEGERS else ""


def point_1(functions, types):
    enums = {one.name for one in types if one.word == "enum"}
    for one in types:
        if option_or_result(one):
            yield "1a", one, ""
        if flag_in(one):
            yield "1b", one, ""
    for function in functions:
        enum = number_for(function, enums)
        if flag_beside(function.parameters):
            yield "1b", function, ""
        if enum in CHOICES or re.search(r"Refusal$|Answer$", enum) and enum != "ByteAnswer":
            yield "1c", function, enum


# ---- 2: twins

WIDTHS = INTEGERS - {"usize", "isize"}
KEPT = {"if", "else", "match", "while", "for", "in", "loop", "let", "mut", "return", "break", "as", "true", "false", "self", "usize", "bool", "f64"}
SHORT, LONG = 8, 40  # words of a body: so many or fewer
SAID = re.compile(r"\d|(?:while|for|loop|let|==|\[)$|[-+*/%<>!|]")  # what makes a body say more than which functions it calls


def outline(words):
    """A body with widths, paths, constants, names of locals, and of the functions called, set aside: those of a body that only calls stay."""
    says = any(SAID.match(word) for word in words)
    found, locals_ = [], {}
    for at, word in enumerate(words):
        after = words[at + 1] if at + 1 < len(words) else ""
        if word == "::" or after == "::":
            continue
        if word in WIDTHS or re.match(r"\d", word):
            found.append("width" if word in WIDTHS else "0")
        elif not WORD.match(word) or word in KEPT or at and words[at - 1] == ".":
            found.append("call" if says and after == "(" and WORD.match(word) and word not in KEPT else word)
        elif says and word.isupper() and len(word) > 1:
            found.append("0")
        elif after in ("(", "!") or word[0].isupper():
            found.append(("call" if after in ("(", "!") else "Name") if says else word)
        else:
            found.append(f"local{locals_.setdefault(word, len(locals_))}")
    return " ".join(found)


def in_outline(word):
    return re.sub("|".join(rf"\b{width}\b" for width in WIDTHS), "width", re.sub(r"\b[A-Z]\w+", "Name", word))


def groups(keyed):
    """The members of each group of two or more that have one key, with the group's name: that of its first."""
    found = collections.defaultdict(list)
    for key, one in keyed:
        found[key].append(one)
    return [(one, f"{group[0].crate}::{group[0].name}") for group in found.values() if len(group) > 1 for one in group]


def fields_of(one):
    return {"".join(part) for part in one.parts} if one.word == "struct" else set()


def twin_key(function):
    """Twins have one outline; where it is no long one, one row of parameter types too, and where it is a short one, one name as well."""
    body = outline(function.body)
    types = () if len(body.split()) > LONG else tuple(in_outline(word) for _, word in function.parameters)
    return body, types, function.name if len(body.split()) <= SHORT else ""


def point_2(functions, types):
    """a: functions that have twins, exports for C aside. b: enums with the same variants, structs with three fields in common. c: functions with one name and
    the same promise, word for word, whose bodies differ."""
    inner = [one for one in functions if one.body and not one.exported]
    twins = groups((twin_key(one), one) for one in inner)
    for one, group in twins:
        yield "2a", one, group
    others = [one for one in inner if one.ensures and all(one is not other for other, _ in twins)]
    for one, group in groups(((one.name, *one.ensures), one) for one in others):
        yield "2c", one, group
    for one, group in groups((tuple(part[0] for part in one.parts), one) for one in types if one.word == "enum"):
        yield "2b", one, group
    for one in types:
        alike = [other for other in types if len(fields_of(one) & fields_of(other)) >= 3]
        if len(alike) > 1:
            yield "2b", one, f"{alike[0].crate}::{alike[0].name}"


# ---- 3: loops


@dataclasses.dataclass
class Loop:
    crate: str
    file: str
    line: int
    name: str  # of its function
    test: list
    body: list


def loops_of(function):
    for at, word in enumerate(function.body):
        if word in ("while", "loop"):
            opening = function.body.index("{", at)
            body = function.body[opening + 1 : closed(function.body, opening)]
            yield Loop(function.crate, function.file, function.lines[at], function.name, function.body[at + 1 : opening], body)


def kind_of_loop(loop):
    """a: a scan into a flag. b: one that copies, fills or compares entry by entry. c: another that steps by one. d: another that sets a variable of its test.
    e: any other."""
    body = " ".join(loop.body)
    steps = [variable for variable in loop.test if WORD.match(variable) and re.search(rf"(?:^|[;{{}}] ){variable} [-+]= 1 ;", body)]
    entry = r"\w+ \[ [^][]* \]"
    if steps and re.search(r"(?:^|; )(\w+) = \1 \| |(?:^|; )\w+ \|= ", body):
        return "3a"
    if steps and re.fullmatch(rf"(?:{entry} = (?:{entry}|\d+) ; )+\w+ [-+]= 1 ;|if {entry} != {entry} {{ return false ; }} \w+ [-+]= 1 ;", body):
        return "3b"
    if steps:
        return "3c"
    return "3d" if any(re.search(rf"(?:^|[;{{}}] ){variable} [-+*/]?= ", body) for variable in loop.test if WORD.match(variable)) else "3e"


def point_3(functions, _types):
    for function in functions:
        for loop in loops_of(function):
            yield kind_of_loop(loop), loop, ""


# ---- 4: equality, order, copying, conversion and printing by hand

TRAITS = {"Clone", "Copy", "Debug", "PartialEq", "Eq", "PartialOrd", "Ord", "Hash", "Default"}
ONE = r"[\w.:]+(?: [-+] [\w.:]+)?"
BY_IF = [
    rf"if ({ONE}) [<>]=? ({ONE}) {{ (?:\1 }} else {{ \2|\2 }} else {{ \1) }}",  # the lesser or the greater
    rf"if ({ONE}) <=? ({ONE}) {{ (?:\2 - \1 }} else {{ 0|0 }} else {{ \1 - \2) }}",  # 0 where a difference is below
    r"if (\w+) < \w+ { \1 \+ 1 } else { \1 }",  # no further than the largest
    r"if (\w+) < 0 { \( 0 - \1 \) as \w+ } else { \1 as \w+ }",  # the absolute value
    r"if \w+ \( (\w+) , (\w+) , (\w+) \) { \1 \[ (?:\2 \] } else { \1 \[ \3|\3 \] } else { \1 \[ \2) \] }",  # of two entries
]


def text_of(words):
    return re.sub(r" (\.|::) ", r"\1", " ".join(words))


def fields_copied(function):
    """Whether a struct is made with two fields or more of another one, each by its name."""
    for inside in re.findall(r"\b[A-Z]\w* { ([^{}]*) }", text_of(function.body)):
        bases = collections.Counter(base for _, base in re.findall(r"\b(\w+) : (\w+)\.\1 (?=,|$)", inside + " "))
        if any(count > 1 for count in bases.values()):
            return True
    return False


def prints(function):
    pairs = zip(function.parameters, function.parameters[1:])
    return any(buffer == "&mut[u8]" and word == "usize" and name in ("at", "next") for (_, buffer), (name, word) in pairs)


def point_4(functions, types):
    """a: a number for a word or a verdict, and back. b: a type that derives neither Debug nor PartialEq. c: an impl by hand of what is derived. d: the lesser,
    the greater, a difference or a sum that stops at the end, the absolute value, by `if`. e: a function that is one cast. f: fields copied one by one. g: bytes
    written into a lent buffer from a place on."""
    enums = {one.name for one in types if one.word == "enum"}
    counted = {id(one) for _, one, _ in point_1(functions, types)}
    for one in types:
        if not {"Debug", "PartialEq"} & one.derives:
            yield "4b", one, ""
    for function in functions:
        if id(function) not in counted and number_for(function, enums):
            yield "4a", function, number_for(function, enums)
        if function.of_trait in TRAITS:
            yield "4c", function, function.of_trait
        if any(re.search(form, text_of(function.body)) for form in BY_IF):
            yield "4d", function, ""
        if re.fullmatch(r"\w+(?: as \w+)+", text_of(function.body)):
            yield "4e", function, ""
        if fields_copied(function):
            yield "4f", function, ""
        if prints(function):
            yield "4g", function, ""


# ---- 5: facts and parameters that stand in three functions or more

TOGETHER, MANY = 3, 10


def facts_of(function, types):
    """The relations of a `requires`: words with a capital and an argument behind them that are no type of the house."""
    rows = zip(function.requires, function.requires[1:] + [""])
    return {word for word, after in rows if re.match(r"[A-Z]\w*$", word) and word not in types and (after == "(" or WORD.match(after))}


def rows_of(function):
    """The rows of parameters that stand side by side, three or more, each with name and type."""
    row = function.parameters
    return {tuple(row[first:end]) for first in range(len(row)) for end in range(first + TOGETHER, len(row) + 1)}


def point_5(functions, types):
    names = {one.name for one in types}
    facts = collections.Counter(fact for function in functions for fact in facts_of(function, names))
    rows = collections.Counter(row for function in functions for row in rows_of(function))
    for function in functions:
        shared = sorted(fact for fact in facts_of(function, names) if facts[fact] >= TOGETHER)
        travelling = [row for row in rows_of(function) if rows[row] >= TOGETHER]
        if shared:
            yield "5a", function, " ".join(shared)
        if travelling:
            yield "5b", function, ",".join(name for name, _ in max(travelling, key=len))
        if len(function.parameters) >= MANY:
            yield "5c", function, str(len(function.parameters))


# ---- 6: buffers with a length beside them, parallel arrays, searches, arenas


def counted_buffers(function):
    """The numbers that `requires` holds to the length of a lent buffer: `count ≤ length list.now`."""
    numbers = {name for name, word in function.parameters if word in INTEGERS}
    buffers = {name for name, word in function.parameters if "[" in word}
    pairs = re.findall(r"(?<![\w.+] )(\w+) ≤ length (\w+) \.", " ".join(function.requires))
    return sorted({f"{number},{buffer}" for number, buffer in pairs if number in numbers and buffer in buffers})


def parallel(function):
    """Lent arrays that are read or written at one index in one body, but for those that are copied into or compared with each other."""
    buffers = {name for name, word in function.parameters if "[" in word}
    body = " ".join(function.body)
    found = set()
    for index in set(re.findall(r"\[ ([^][]+) \]", body)):
        names = sorted({name for name in buffers if f" {name} [ {index} ]" in f" {body}"})
        pairs = [(a, b) for a in names for b in names if a < b]
        sides = rf" \[ {re.escape(index)} \] (?:=|[!=<>]=?) "
        found |= {(a, b) for a, b in pairs if not re.search(rf"\b{a}{sides}{b} \[|\b{b}{sides}{a} \[", body)}
    return sorted(",".join(pair) for pair in found)


def searches(loop):
    """A loop that ends at the first place that fits: by a return in an `if` of its own, or as its test is a function of the place."""
    body, test = " ".join(loop.body), " ".join(loop.test)
    return re.search(r"(?:^|[;{}] )if [^{}]* { return\b", body) or re.fullmatch(r"(?:! )?\w+ \( .* \)", test)


def point_6(functions, types):
    """a: an array in a struct with a number beside it. b: a number that `requires` holds to a lent buffer's length. c: bytes that are read from a place on.
    d: lent arrays with one index. e: loops that look for a place. f: trees and chains in arrays of numbers: `levels`, or a place that an array gives for it."""
    for one in types:
        if one.word == "struct" and any("[" in part for part in one.parts) and any(part[-1] in INTEGERS for part in one.parts):
            yield "6a", one, ""
    for function in functions:
        pairs = zip(function.parameters, function.parameters[1:])
        if counted_buffers(function):
            yield "6b", function, " ".join(counted_buffers(function))
        if any(buffer == "&[u8]" and word == "usize" and name in ("at", "next") for (_, buffer), (name, word) in pairs):
            yield "6c", function, ""
        if parallel(function):
            yield "6d", function, " ".join(parallel(function))
        for loop in loops_of(function):
            if searches(loop):
                yield "6e", loop, ""
        linked = re.search(r"\b(\w+) = \w+ \[ (?:[^][]* )?\1 \]", " ".join(function.body))
        if linked or any(name.endswith("levels") and "[" in word for name, word in function.parameters):
            yield "6f", function, ""


# ---- 7: switches and tables of functions


def point_7(functions, types):
    """a: a `match` or a test of an enum that says what is done, where it isn't turned into a number. b: a function that takes one, but for Kind, and hands it
    down. c: the same for Kind, which is also a part of a pair's name. d: a table or a pointer of functions, a dyn."""
    enums = {one.name for one in types if one.word == "enum"}
    for function in functions:
        body = " ".join(function.body)
        switched = set(re.findall(r"(?:\bmatch [^{}]*{|[!=]=) (?:\w+ :: )*?(\w+) :: \w+ ", body)) & CHOICES
        if function.of_trait == "" and not number_for(function, enums):
            for choice in sorted(switched):
                yield "7a", function, choice
        taken = {word for _, word in function.parameters if word in CHOICES} - switched
        if taken - {"Kind"}:
            yield "7b", function, " ".join(sorted(taken - {"Kind"}))
        if "Kind" in taken and not number_for(function, enums):
            yield "7c", function, "Kind"
        if re.search(r"\bdyn\b|\bfn \(", " ".join(word for _, word in function.parameters) + " " + body):
            yield "7d", function, ""


# ---- 8: proofs


@dataclasses.dataclass
class Proof:
    crate: str
    file: str
    line: int
    name: str
    body: str  # without the name, blanks made one
    answers: bool  # a goal
    public: bool


def proofs(tree):
    """What each file of answers and each file right in proofs/ declares."""
    paths = [*tree.glob("crates/*/proofs/**/Answers.antt"), *tree.glob("crates/*/proofs/*.antt")]
    for path in sorted(path for path in paths if path.name != "Lib.antt"):
        source, file = path.read_text(encoding="utf-8"), str(path.relative_to(tree))
        lines, at = source.splitlines(), 0
        for one in specs.declarations_in(file, source):
            first = one.text.splitlines()[0]
            at = next(place for place in range(at, len(lines)) if lines[place].rstrip() == first) + 1
            body = " ".join(one.text.partition(f"\n{one.name} ")[2].split())
            yield Proof(file.split("/")[1], file, at, one.name, body, ": goal." in first, first.split()[0] == "pub" or " pub " in first)


def point_8(tree):
    """a: an answer that is a bare `omega arith` or `search ..`. b: what a file of answers declares beside them. c: what another file keeps to itself. d: an
    answer of twelve words or more that stands three times or more."""
    found = list(proofs(tree))
    bodies = collections.Counter(one.body for one in found if one.answers)
    for one in found:
        if one.answers and re.fullmatch(r"c = (?:omega arith|search(?: \S+)*)", one.body):
            yield "8a", one, ""
        if not one.answers and not one.public:
            yield "8b" if one.file.endswith("/Answers.antt") else "8c", one, ""
        if one.answers and bodies[one.body] >= 3 and len(one.body.split()) >= 12:
            yield "8d", one, ""


# ---- the table

PARTS = {
    "1a": "own enums of the shape of Option or Result",
    "1b": "a flag with a value beside it: structs, parameters",
    "1c": "numbers for kinds and refusals: functions",
    "2a": "functions with a twin",
    "2b": "types with a twin",
    "2c": "functions with one name and one promise whose bodies differ",
    "3a": "loops that count an index by hand: scans into a flag",
    "3b": "the same: copies, fills, comparisons",
    "3c": "the same: others",
    "3d": "loops that set a variable of their test otherwise",
    "3e": "other loops",
    "4a": "numbers for words and verdicts: functions",
    "4b": "types without Debug and PartialEq",
    "4c": "impls by hand of what is derived",
    "4d": "lesser, greater, saturating, absolute by `if`",
    "4e": "functions that are one cast",
    "4f": "functions that copy fields one by one",
    "4g": "functions that write bytes from a place on",
    "5a": "functions that require a fact that three require",
    "5b": "functions with three parameters or more that stand side by side in three",
    "5c": "functions with ten parameters or more",
    "6a": "structs with an array and a number",
    "6b": "functions with a number that is held to a buffer's length",
    "6c": "functions that read bytes from a place on",
    "6d": "functions with parallel arrays",
    "6e": "loops that look for a place",
    "6f": "functions with trees or chains in arrays of numbers",
    "7a": "matches on a choice",
    "7b": "functions that hand a choice down, Kind aside",
    "7c": "functions that hand a Kind down, beside",
    "7d": "tables of functions, dyn",
    "8a": "answers that are a bare `omega arith` or `search ..`",
    "8b": "lemmas and abbreviations in files of answers, beside",
    "8c": "lemmas and abbreviations that another file of proofs/ keeps to itself, beside",
    "8d": "answers of twelve words or more that stand three times or more",
}

BESIDE = {"7c", "8b", "8c"}  # what is looked through, and no place by itself


def places(tree):
    functions, types = read(tree)
    points = [point(functions, types) for point in (point_1, point_2, point_3, point_4, point_5, point_6, point_7)]
    for point in [*points, point_8(tree)]:
        yield from sorted(point, key=lambda place: (place[0], place[1].file, place[1].line))


def main():
    arguments = argparse.ArgumentParser(description="Counts the places of docs/DESIGN-PASS.md.")
    arguments.add_argument("tree", nargs="?", default=".", type=pathlib.Path)
    arguments.add_argument("--list", action="store_true", help="a line a place, in place of the table")
    asked = arguments.parse_args()
    found = list(places(asked.tree))
    if asked.list:
        for part, one, said in found:
            print(part, one.crate, f"{one.file}:{one.line}", one.name, said)
        return
    for point in "12345678":
        distinct = {(one.file, one.line, one.name) for part, one, _ in found if part[0] == point and part not in BESIDE}
        print(f"{point}  {len(distinct):5} places")
        for part in (part for part in PARTS if part[0] == point):
            print(f"{part} {sum(place[0] == part for place in found):5} {PARTS[part]}")


if __name__ == "__main__":
    main()
