"""The functions of crates/*/src: each with its comment, its contract and its place. The steps of the gate that hold pages to them read by it."""
import dataclasses
import functools
import pathlib
import re

TOP = pathlib.Path(__file__).resolve().parents[1]
HEAD = re.compile(r'^( *)(pub(?:\(crate\))? )?(extern "C" )?fn (\w+)')


@dataclasses.dataclass
class Function:
    crate: str
    file: str  # relative to the top
    owner: str  # of a method, or ''
    name: str
    public: bool
    exported: bool
    line: int
    comment: str
    head: str  # from its name to the clauses
    clauses: list  # (requires or ensures, words)
    body: str

    @property
    def full(self):
        return "::".join(part for part in (self.crate, self.owner, self.name) if part)


def comment_above(lines, at):
    """The `//` lines right above a function and its attribute, joined."""
    found = []
    while at > 0 and lines[at - 1].strip().startswith("#["):
        at -= 1
    while at > 0 and lines[at - 1].strip().startswith("//"):
        at -= 1
        found.insert(0, lines[at].strip().removeprefix("//").strip())
    words = " ".join(found)
    return "" if words.startswith("----") else words


def clauses_in(lines):
    """The clauses of a contract: each begins with its word and may go on over further lines."""
    found = []
    for line in lines:
        clause = re.match(r"\s*(requires|ensures|decreases)\b\s*(.*)", line)
        if clause:
            found.append([clause.group(1), clause.group(2)])
        elif found:
            found[-1][1] += " " + line.strip()
    return [(word, said) for word, said in found]


def function_at(crate, file, lines, at, owner):
    """The function that begins at a line: its contract stands between its head and the line that opens its body."""
    match = HEAD.match(lines[at])
    opening = next(k for k in range(at, len(lines)) if lines[k].rstrip().endswith("{"))
    closing = next(k for k in range(opening, len(lines)) if lines[k].startswith(match.group(1) + "}"))
    first = next((k for k in range(at, opening + 1) if re.match(r"\s*(requires|ensures|decreases)\b", lines[k])), opening)
    return Function(
        crate=crate,
        file=file,
        owner=owner if match.group(1) else "",
        name=match.group(4),
        public=match.group(2) == "pub ",
        exported=bool(match.group(3)),
        line=at + 1,
        comment=comment_above(lines, at),
        head=" ".join(line.strip() for line in lines[at : max(first, at + 1)]),
        clauses=clauses_in(lines[first:opening]),
        body="\n".join(lines[at : closing + 1]),
    )


def functions_in(crate, file, source):
    lines, owner, found = source.splitlines(), "", []
    for at, line in enumerate(lines):
        block = re.match(r"impl (\w+)", line)
        owner = block.group(1) if block else "" if line.startswith("}") else owner
        if HEAD.match(line):
            found.append(function_at(crate, file, lines, at, owner))
    return found


@functools.cache
def functions():
    """Every function of the house, by file and then by place."""
    found = []
    for file in sorted(TOP.glob("crates/*/src/**/*.rt")):
        crate = file.relative_to(TOP).parts[1]
        found += functions_in(crate, str(file.relative_to(TOP)), file.read_text(encoding="utf-8"))
    return found


def sources(crate):
    return "\n".join(file.read_text(encoding="utf-8") for file in sorted((TOP / "crates" / crate / "src").rglob("*.rt")))


@functools.cache
def rooms():
    """The rooms of crates.txt, in order: each title with its crates, each with what it stands on."""
    found = []
    for line in (TOP / "crates.txt").read_text(encoding="utf-8").splitlines():
        title = re.match(r"# == (.+?)\s*(?:==)?$", line)
        crate = re.match(r"([a-z_0-9]+)(?: staticlib)?:(.*)", line)
        if title:
            found.append((title.group(1), {}))
        elif crate:
            found = found or [("", {})]
            found[-1][1][crate.group(1)] = crate.group(2).split()
    return found


def crates():
    return [crate for _, room in rooms() for crate in room]


def below(crate):
    """What a crate stands on, as crates.txt lists it."""
    return next(room[crate] for _, room in rooms() if crate in room)


def is_program(crate):
    return (TOP / "crates" / crate / "src/main.rt").exists()
