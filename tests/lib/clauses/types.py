"""The types that a source names, and the functions and types that it sees."""
import functools
import re
from typing import Dict, Iterator, List, NamedTuple, Optional, Tuple

from lib.clauses.brackets import outside
from lib.clauses.sources import Crate, File, Function, Shape


class Type(NamedTuple):
    """A type: its name, the file in which it is read, and its arguments; a slice or an array is a Vec."""
    name: str
    file: File
    arguments: Tuple["Type", ...]


def read_type(text: str, file: File) -> Optional[Type]:
    """The type that a text says; references, lifetimes and boxes are passed over."""
    text = re.sub(r"^(?:&\s*(?:'\w+\s*)?|mut\s+|dyn\s+|impl\s+)+", "", text.strip())
    if text.startswith("["):
        inner = read_type(next(outside(text[1:-1], ";"), ""), file)
        return Type("Vec", file, (inner,)) if inner else None
    if text.startswith("("):
        parts = [read_type(part, file) for part in outside(text[1:-1])]
        return Type("()", file, tuple(part or Type("", file, ()) for part in parts))
    head = re.match(r"(?:\w+::)*(\w+)\s*(?:<(.*)>)?", text, re.S)
    if head is None:
        return None
    arguments = [read_type(part, file) for part in outside(head[2] or "") if not part.startswith("'")]
    if head[1] == "Box" and arguments:
        return arguments[0]
    name = "Vec" if head[1] in ("ArrayVec", "VecDeque", "Iter", "IterMut") else head[1]
    return Type(name, file, tuple(part or Type("", file, ()) for part in arguments))


class World:
    """All crates, and which functions and types a file sees."""

    def __init__(self, crates: Dict[str, Crate]) -> None:
        self.crates = crates
        self.named: Dict[Tuple[str, str, str], List[Function]] = {}
        for crate in crates.values():
            for function in crate.functions:
                self.named.setdefault((crate.name, function.owner, function.name), []).append(function)

    def seen(self, file: File) -> Iterator[Crate]:
        """The crate of a file, and those that it uses."""
        crate = self.crates[file.crate]
        yield crate
        for name in crate.below:
            if name in self.crates:
                yield self.crates[name]

    def crate_of_path(self, path: str, file: File) -> Optional[Crate]:
        """The crate whose item a `use` line brings in."""
        first = path.split("::")[0]
        is_own = first in ("crate", "self", "super") or any(it.file.module[:1] == (first,) for it in self.crates[file.crate].functions)
        return self.crates[file.crate] if is_own else self.crates.get(first)

    def shape(self, name: str, file: File) -> Optional[Shape]:
        """The type of this name, as a file sees it."""
        if name in file.uses:
            crate = self.crate_of_path(file.uses[name], file)
            if crate is None:
                return None
            if file.uses[name].split("::")[-1] in crate.shapes:
                return crate.shapes[file.uses[name].split("::")[-1]]
        return self.crates[file.crate].shapes.get(name)

    def owner_crate(self, name: str, file: File) -> Optional[Crate]:
        """The crate that declares a type or a trait, as a file sees it."""
        if name in file.uses:
            return self.crate_of_path(file.uses[name], file)
        return self.crates[file.crate]

    def method(self, kind: Type, name: str) -> Optional[Function]:
        crate = self.owner_crate(kind.name, kind.file)
        own = kind.file.uses.get(kind.name, kind.name).split("::")[-1]
        found = self.named.get((crate.name, own, name), []) if crate else []
        return found[0] if len(found) == 1 else None

    def plain_function(self, path: str, name: str, file: File) -> Optional[Function]:
        """The free function of this name, as a file sees it."""
        if path:
            first = path.split("::")[0]
            first_path = file.uses.get(first, first)
            crate = self.crate_of_path(first_path, file)
            modules = [part for part in (first_path + "::" + "::".join(path.split("::")[1:])).split("::") if part and part not in ("crate", "self", "super")]
        elif name in file.uses:
            crate, modules = self.crate_of_path(file.uses[name], file), file.uses[name].split("::")[1:-1]
            name = file.uses[name].split("::")[-1]
        else:
            crate, modules = self.crates[file.crate], list(file.module)
        found = self.named.get((crate.name, "", name), []) if crate else []
        if len(found) > 1:
            found = [it for it in found if list(it.file.module) == modules] or [it for it in found if it.file.module[-1:] == tuple(modules[-1:])]
        return found[0] if len(found) == 1 else None

    @functools.lru_cache(maxsize=None)
    def all_named(self, crate: str, name: str) -> Tuple[Function, ...]:
        """The functions and methods of this name that a crate sees."""
        return tuple(it for seen in self.seen(File(crate, (), {}, {})) for it in seen.functions if it.name == name)
