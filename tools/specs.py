"""The declarations of the house, those of crates/*/specs and the theorems of crates/*/proofs, and which declarations each one names. The steps of the gate
that count or look up definitions and theorems read by it.

A module is named as in a file of Rattle, without the first word: `theory.specs.Judged` is crates/theory/specs/Judged.antt, and `theory.proofs.Judged` has
the theorems on its definitions. A page names what stands in either by `theory/Judged.name`.
"""
import dataclasses
import functools
import pathlib
import re

TOP = pathlib.Path(__file__).resolve().parents[1]
WORD = r"[\w'₀-₉⁺⁻*-]+"
HEAD = re.compile(rf"((?:(?:pub|abbrev|unfoldable|record|data) )*)({WORD}|◌\S+|\S+◌)(?=[ :])")
USE = re.compile(r"^(?:ghost )?(?:pub )?use Rattle\.(\w+\.(?:specs|proofs)\.[\w.-]+?)(?:\.\{(.*)\}| as (\w+))?;?$")
DEFINING = {"record", "data", "abbrev", "unfoldable"}


@dataclasses.dataclass
class Declaration:
    module: str
    name: str
    kind: str  # record, data, abbrev, unfoldable; a theorem or an opaque definition is 'proof'; struct, enum of the code
    text: str  # its lines without comments
    head: str = ""  # of the section of a file whose parameters it has

    @property
    def lines(self):
        return self.text.count("\n") + 1

    @property
    def crate(self):
        return self.module.split(".")[0]

    @property
    def place(self):
        """As a page names it: `crate/File.name`, or `crate/shown/File.name`."""
        return f"{self.crate}/{'/'.join(self.module.split('.')[2:])}.{self.name}"


def indent(line):
    return len(line) - len(line.lstrip())


def begins(line, current):
    """The keywords and the names of the declaration that a line begins, if it begins another one than the current."""
    head = HEAD.match(line.strip())
    if not head or head.group(2) in ("use", "module", "unfolding", "mod"):
        return None
    words, name = head.group(1).split(), head.group(2)
    row = re.match(rf"((?:{WORD} )+):", line.strip().removeprefix(head.group(1)))
    is_equation = not words and current is not None and current.name == name and not row
    return None if is_equation else (words, row.group(1).split() if row and not DEFINING & {"record", "data"} & set(words) else [name])


def kind_of(words):
    return next((word for word in words if word in DEFINING), "proof")


def without_comments(source):
    return [line.rstrip() for line in source.splitlines() if line.strip() and not line.strip().startswith("--")]


class Reader:
    """Reads the declarations of a file, line by line. A section `module _ ... where` has its declarations two columns further in than itself."""

    def __init__(self, module):
        self.module = module
        self.found, self.current = [], None
        self.sections = []  # those that the line stands in, as [column, head]

    def leave_sections(self, column):
        while self.sections and column <= self.sections[-1][0]:
            self.sections.pop()

    def read(self, line):
        column = indent(line)
        if self.sections and not self.sections[-1][1].endswith("where"):
            self.sections[-1][1] += " " + line.strip()
            return
        self.leave_sections(column)
        level = self.sections[-1][0] + 2 if self.sections else 0
        start = begins(line, self.current) if column == level else None
        if column == level and line.strip().startswith("module "):
            self.sections.append([column, line.strip()])
            self.current = None
        elif start:
            head = " ".join(section for _, section in self.sections)
            made = [Declaration(self.module, name, kind_of(start[0]), line, head) for name in start[1]]
            self.found += made
            self.current = made[0]
        elif self.current is not None and not line.startswith("use "):
            self.current.text += "\n" + line


def declarations_in(module, source):
    """The declarations of a file, in its order."""
    reader = Reader(module)
    for line in without_comments(source):
        reader.read(line)
    return reader.found


@functools.cache
def is_own(module):
    """Whether a module is of a crate of this house, and not of a library of Rattle's."""
    return (TOP / "crates" / module.split(".")[0]).is_dir()


def uses_in(source):
    """What a file names of other files: each short name with where it is from, and each alias of a file."""
    names, aliases = {}, {}
    for line in source.splitlines():
        use = USE.match(line.strip())
        if not use or not is_own(use.group(1)):
            continue
        module, listed, alias = use.groups()
        for name in re.split(r",\s*", listed or ""):
            short = name.split(" as ")[-1].strip()
            if short:
                names[short] = (module, name.split(" as ")[0].strip())
        aliases[alias or module.split(".")[-1]] = module
    return names, aliases


def of_types(crate):
    """The module in which a crate's files find the types of its code."""
    return f"{crate}.specs.declared"


def types_in(crate, source):
    """The structs and enums of a file of code, as declarations."""
    found = []
    for start in re.finditer(r"^(?:pub(?:\(crate\))? )?(struct|enum) (\w+)", source, re.M):
        lines = source[start.start() :].splitlines()
        last = next((k for k, line in enumerate(lines) if line.startswith("}") or line.endswith(";")), 0)
        kept = [line for line in lines[: last + 1] if line.strip() and not line.strip().startswith("//")]
        found.append(Declaration(of_types(crate), start.group(2), start.group(1), "\n".join(kept)))
    return found


def files():
    """The files of definitions and theorems: those of specs/, and those right in proofs/. What lies in a folder there is the proof of one function."""
    return sorted([*TOP.glob("crates/*/specs/**/*.antt"), *TOP.glob("crates/*/proofs/*.antt")])


def module_of(file):
    return ".".join(file.relative_to(TOP / "crates").with_suffix("").parts)


@functools.cache
def sources():
    """What stands in each file, by its module."""
    return {module_of(file): file.read_text(encoding="utf-8") for file in files()}


def types_of_code():
    files = sorted(TOP.glob("crates/*/src/**/*.rt"))
    return [one for file in files for one in types_in(file.relative_to(TOP).parts[1], file.read_text(encoding="utf-8"))]


@functools.cache
def declared():
    """Each declaration of the house, by module and name."""
    found = [one for module, source in sources().items() for one in declarations_in(module, source)]
    return {(one.module, one.name): one for one in [*found, *types_of_code()]}


def cases_of(one):
    """The names of a data type's cases, or of an enum's variants."""
    if one.kind == "data":
        return [name for row in re.findall(rf"^ +((?:{WORD} )+):", one.text, re.M) for name in row.split()]
    return re.findall(r"^ +(\w+)[,(]", one.text, re.M) if one.kind == "enum" else []


@functools.cache
def cases():
    return {(one.module, case): one for one in declared().values() for case in cases_of(one)}


def origin_of(module, name=""):
    """The declaration that a name stands for in a module: itself, the type that it is a case of, or, of a path `declared.Type`, the type."""
    crate, *path = module.split(".")
    if path[1:2] == ["declared"]:
        return declared().get((of_types(crate), [part for part in path if part != "TheVariants"][-1]))
    return declared().get((module, name)) or cases().get((module, name))


def tokens(text):
    return re.findall(rf"(?<![\w.'])(?:{WORD})(?:\.{WORD})*", text)


def bound_in(text):
    """The names that a declaration binds itself: fields, variables of a lambda, of a type and of an equation."""
    bound = set(re.findall(rf"^ +(?:pub )?({WORD}) :", text, re.M))
    for row in re.findall(rf"[({{]((?:{WORD} )+):", text) + re.findall(rf"λ ((?:{WORD} ?)+)\.", text):
        bound |= set(row.split())
    return bound | set(re.findall(rf"[{{;]\s*({WORD}) =", text))


def named_by(source, text, module=""):
    """The declarations that a text names, which stands in a file with that source; one of declarations is that module."""
    names, aliases = uses_in(source)
    bound, found = bound_in(text), {}
    for token in tokens(text):
        first, _, rest = token.partition(".")
        if first in aliases and rest:
            one = origin_of(aliases[first], rest.split(".")[-1])
        elif first in bound:
            one = None
        elif first in names:
            one = origin_of(*names[first])
        else:
            one = origin_of(module, first)
        if one is not None:
            found[one.place] = one
    return list(found.values())


def named_by_type(one):
    """The types that a struct or an enum names, of its own crate or of `meaning`."""
    words = set(re.findall(r"\w+", one.text)) - {one.name}
    places = [(of_types(crate), word) for word in words for crate in (one.crate, "meaning")]
    return [declared()[place] for place in places if place in declared()]


def named_by_declaration(one):
    if one.kind in ("struct", "enum"):
        return named_by_type(one)
    return named_by(sources()[one.module], f"{one.head}\n{one.text}", one.module)


def not_found(module):
    """The names that a file takes from others of the house and that this reader finds nowhere."""
    names, _ = uses_in(sources()[module])
    return [name for name, origin in names.items() if origin_of(*origin) is None]


def reached_from(roots):
    """What is reached from some declarations through definitions, but not through proofs; and the proofs at which it ended."""
    found, ended, waiting = {}, {}, list(roots)
    while waiting:
        one = waiting.pop()
        if one.place in found or one.place in ended:
            continue
        if one.kind == "proof":
            ended[one.place] = one
            continue
        found[one.place] = one
        waiting += named_by_declaration(one)
    return list(found.values()), list(ended.values())
