"""The functions of a crate with their contracts, and the types with their fields, read from its sources."""
import pathlib
import re
from typing import Dict, FrozenSet, Iterator, List, NamedTuple, Optional, Pattern, Tuple

from lib.clauses.brackets import Brackets, after_angle, outside, plain

BLOCK = re.compile(r"^ *(?:pub(?:\(\w+\))? )?(impl|trait)\b([^{;]*)\{", re.M)
FUNCTION = re.compile(r"^ *(pub(?:\(\w+\))? )?(?:const |unsafe |extern \"[^\"]*\" )*fn (\w+)", re.M)
CLAUSE = re.compile(r"\s*(ghost|requires|ensures|decreases)\b\*?\s*(\w*):?\s*\{")
RESULT = re.compile(r"\s*(?:->\s*(.*?))?\s*(?=\n\s*(?:where|requires|ensures|ghost|decreases)\b|\{|;|\Z)", re.S)
WHERE = re.compile(r"\s*where\b.*?(?=\{|;|\n\s*(?:requires|ensures|ghost|decreases)\b)", re.S)
TYPE = re.compile(r"^ *(pub(?:\(\w+\))? )?(struct|enum) (\w+)", re.M)
USE = re.compile(r"^ *(?:pub(?:\(\w+\))? )?use ([^;]+);", re.M)
GHOST_USE = re.compile(r"\bghost use ([^;]+);")
INVARIANT = re.compile(r"\bghost (?:invariant\s*=|\w+\s*:)\s*\{")
VIEW = re.compile(r"\bghost view\s*=\s*\{")
LEAVES = re.compile(r"^ *pub use [^;]*;|^ *pub (?:extern \"[^\"]*\" )?(?:fn|struct|enum|trait) \w+", re.M)
LONE = "ensures"  # the name of a guarantee that has none


class Clause(NamedTuple):
    """A guarantee or a precondition: its name, `ensures` if it has none, and its text."""
    name: str
    text: str


class File(NamedTuple):
    """A source: its crate and module, and what its `use` and `ghost use` lines bring in, by name the path."""
    crate: str
    module: Tuple[str, ...]
    uses: Dict[str, str]
    ghosts: Dict[str, str]


class Function(NamedTuple):
    """A function with its contract. `owner` is the type or the trait of a method, `trait` the trait whose method an `impl` gives."""
    file: File
    owner: str
    trait: str
    name: str
    is_public: bool
    generics: str
    parameters: Tuple[Tuple[str, str], ...]
    result: str
    requires: Tuple[Clause, ...]
    ensures: Tuple[Clause, ...]
    attributes: str
    body: str

    @property
    def path(self) -> str:
        return f"{self.owner}::{self.name}" if self.owner else self.name

    @property
    def key(self) -> Tuple[str, Tuple[str, ...], str, str, str]:
        return self.file.crate, self.file.module, self.owner, self.trait, self.name


class Shape(NamedTuple):
    """A type: its fields, and by variant what that holds."""
    file: File
    name: str
    fields: Dict[str, str]
    variants: Dict[str, Dict[str, str]]


class Block(NamedTuple):
    """An `impl` or a `trait`: from where to where its methods are, and of what."""
    begin: int
    end: int
    owner: str
    trait: str


class Crate(NamedTuple):
    """What the sources of a crate declare, the invariants and the models of its types, and the names that leave it."""
    name: str
    below: Tuple[str, ...]
    functions: List[Function]
    shapes: Dict[str, Shape]
    invariants: List[Tuple[File, str]]
    views: List[Tuple[File, str]]
    names: FrozenSet[str]


def imported(text: str) -> Iterator[Tuple[str, str]]:
    """The names of a `use` line with their paths: of `a::{b, c as d}` b with a::b, and d with a::c."""
    brace = re.match(r"([^{]*)\{(.*)\}\s*$", text, re.S)
    if brace is not None:
        for part in outside(brace[2]):
            for name, path in imported(part):
                yield name, brace[1].strip() + path
        return
    path, _, other = text.strip().partition(" as ")
    yield (other or re.split(r"::|\.", path)[-1]).strip(), path.strip()


def uses_of(pattern: Pattern[str], text: str) -> Dict[str, str]:
    return {name: path for found in pattern.finditer(text) for name, path in imported(found[1])}


def last_name(text: str) -> str:
    """The name of a type without its path and its arguments."""
    found = re.match(r"\s*(?:&\s*(?:'\w+\s*)?(?:mut\s+)?)?(?:\w+::)*(\w+)", text)
    return found[1] if found else ""


def blocks_of(text: str, brackets: Brackets) -> Iterator[Block]:
    """The `impl`s and traits of a text."""
    for head in BLOCK.finditer(text):
        end, said = brackets.end(head.end() - 1), re.sub(r"\bwhere\b.*", "", head[2], flags=re.S).strip()
        said = said[after_angle(said, 0):] if said.startswith("<") else said
        halves = re.split(r"\bfor\b", said)
        yield Block(head.end(), end, last_name(halves[-1]), last_name(halves[0]) if len(halves) > 1 else "")


def contract(text: str, at: int, brackets: Brackets) -> Tuple[List[Clause], List[Clause], int]:
    """The preconditions and guarantees that begin here, and where they end."""
    kept: Dict[str, List[Clause]] = {"requires": [], "ensures": [], "ghost": [], "decreases": []}
    while True:
        head = CLAUSE.match(text, at)
        if head is None:
            return kept["requires"], kept["ensures"], at
        end = brackets.end(head.end() - 1)
        kept[head[1]].append(Clause(head[2] or LONE, " ".join(text[head.end():end].split())))
        at = end + 1


def parameters_of(text: str) -> Iterator[Tuple[str, str]]:
    """The parameters with their types; `self` has the type Self."""
    for part in outside(text):
        name, colon, kind = part.partition(":")
        bare = re.sub(r"^(?:&\s*(?:'\w+\s*)?)?(?:mut\s+)?", "", name.strip())
        yield bare, kind.strip() if colon else "&mut Self" if re.match(r"&\s*(?:'\w+\s*)?mut ", name.strip()) else "Self"


def attributes_before(text: str, at: int) -> str:
    """The attributes in the lines above this place."""
    lines = text[:at].rstrip("\n").split("\n")
    kept: List[str] = []
    while lines and (lines[-1].strip().startswith("#[") or (not lines[-1].strip() and kept)):
        kept.append(lines.pop())
    return " ".join(kept)


def function_at(file: File, text: str, brackets: Brackets, head: "re.Match[str]", block: Optional[Block]) -> Function:
    """The function that begins here."""
    at = head.end()
    inner = after_angle(text, at) if text[at:at + 1] == "<" else at
    generics, at = text[at + 1:max(inner - 1, at + 1)], text.index("(", inner)
    close = brackets.end(at)
    result = RESULT.match(text, close + 1)
    begin = result.end() if result else close + 1
    where = WHERE.match(text, begin)
    generics += ", " + where[0].strip()[len("where"):] if where else ""
    requires, ensures, until = contract(text, where.end() if where else begin, brackets)
    body = re.compile(r"\s*\{").match(text, until)
    return Function(file, block.owner if block else "", block.trait if block else "", head[2], (head[1] or "").strip() == "pub", generics,
                    tuple(parameters_of(text[at + 1:close])), " ".join((result[1] or "").split()) if result else "", tuple(requires), tuple(ensures),
                    attributes_before(text, head.start()), text[body.end():brackets.end(body.end() - 1)] if body else "")


def held(text: str) -> Dict[str, str]:
    """What a variant or a struct holds: by name or by number its type."""
    found: Dict[str, str] = {}
    for number, part in enumerate(outside(text)):
        part = re.sub(r"^(?:#\[[^]]*\]\s*)*(?:pub(?:\(\w+\))?\s+)?", "", part)
        named = re.match(r"(\w+)\s*:(?!:)\s*(.*)", part, re.S)
        if not part.startswith("ghost "):
            found[named[1] if named else str(number)] = named[2] if named else part
    return found


def shape_at(file: File, text: str, brackets: Brackets, head: "re.Match[str]") -> Shape:
    """The type that begins here."""
    at = head.end()
    at = after_angle(text, at) if text[at:at + 1] == "<" else at
    begin = re.compile(r"[^;{(]*([({])").match(text, at)
    inner = text[begin.end():brackets.end(begin.end() - 1)] if begin else ""
    if head[2] == "struct":
        return Shape(file, head[3], held(inner), {})
    variants = {}
    for part in outside(inner):
        named = re.match(r"(?:#\[[^]]*\]\s*)*(\w+)\s*(?:[({](.*)[)}])?", part, re.S)
        if named:
            variants[named[1]] = held(named[2] or "")
    return Shape(file, head[3], {}, variants)


def read_file(crate: str, module: Tuple[str, ...], source: str, into: Crate) -> None:
    """Adds what a source declares."""
    text = plain(source)
    brackets = Brackets(text)
    file = File(crate, module, uses_of(USE, text), uses_of(GHOST_USE, text))
    blocks = list(blocks_of(text, brackets))
    for head in FUNCTION.finditer(text):
        around = [block for block in blocks if block.begin <= head.start() < block.end]
        into.functions.append(function_at(file, text, brackets, head, around[-1] if around else None))
    for head in TYPE.finditer(text):
        shape = shape_at(file, text, brackets, head)
        into.shapes[shape.name] = shape
    for head in INVARIANT.finditer(text):
        into.invariants.append((file, text[head.end():brackets.end(head.end() - 1)]))
    for head in VIEW.finditer(text):
        into.views.append((file, text[head.end():brackets.end(head.end() - 1)]))


def names_that_leave(path: pathlib.Path) -> Iterator[str]:
    """The names that a module lets out, with those of its `pub mod`s."""
    text = plain(path.read_text())
    yield from re.findall(r"\w+", " ".join(LEAVES.findall(text)))
    for name in re.findall(r"^ *pub mod (\w+);", text, re.M):
        yield from names_that_leave((path.parent if path.name == "lib.rt" else path.with_suffix("")) / f"{name}.rt")


def read_crate(folder: pathlib.Path, below: Tuple[str, ...]) -> Crate:
    """What a crate declares."""
    root = folder / "src" / "lib.rt"
    names = frozenset(names_that_leave(root)) if root.exists() else frozenset()
    crate = Crate(folder.name, below, [], {}, [], [], names)
    for path in sorted((folder / "src").rglob("*.rt")):
        inside = path.relative_to(folder / "src").with_suffix("").parts
        module = inside[:-1] if inside[-1] in ("lib", "main", "mod") else inside
        read_file(folder.name, module, path.read_text(), crate)
    return crate


def crates_of(root: pathlib.Path) -> Dict[str, Crate]:
    """All crates that crates.txt lists, by name, with the crates that each uses."""
    found = {}
    for line in (root / "crates.txt").read_text().splitlines():
        head = re.match(r"(\w+)[^:#]*:(.*)", line)
        if head is not None:
            found[head[1]] = read_crate(root / "crates" / head[1], tuple(head[2].split()))
    return found


def is_exported(crate: Crate, function: Function) -> bool:
    """Whether other crates can call a function: a `pub fn`, or the method of a trait, whose type or name leaves the crate."""
    outermost = function.owner or function.name
    is_method = bool(function.trait) or (function.owner != "" and function.owner not in crate.shapes)
    return (function.is_public or is_method) and (outermost in crate.names or (function.trait in crate.names and outermost in crate.names))
