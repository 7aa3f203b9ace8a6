"""The definitions of the crates' specifications, and which of them a clause is about.

A definition is *closed* if a proof can't look into it: it isn't an `abbrev`, nor a record or a `data` type, of which a proof can make a value. An `abbrev` stands for
the closed definitions that its text names."""
import pathlib
import re
from typing import Dict, FrozenSet, Iterator, List, NamedTuple, Set, Tuple

from lib.clauses.sources import uses_of

HEAD = re.compile(r"^(abbrev |unfoldable )?(?:pub )?(?:(record|data|module|mod|use) )?([^\s:(){}=]+)((?: [^=:]*)?) :(?: |\n)|^(?:pub )?(use|mod|pub mod|module)\b")
USE = re.compile(r"^(?:pub )?use ([^;\n]+)", re.M)
NAME = re.compile(r"(?<![\w.'-])[A-Za-z][\w'-]*")


class Definition(NamedTuple):
    """A definition: whether it is closed, its text with the names it was read with, and its statement alone."""
    closed: bool
    text: str
    statement: str
    uses: Dict[str, str]


def conclusion(text: str) -> str:
    """A clause without its premises: in each pair of brackets what follows the last arrow."""
    stack = [""]
    for sign in text:
        if sign in "({[":
            stack.append("")
        elif sign in ")}]" and len(stack) > 1:
            inner = stack.pop()
            stack[-1] += f"({inner})"
        elif sign == "→":
            stack[-1] = ""
        else:
            stack[-1] += sign
    return " ".join(stack)


class Words:
    """All definitions of the crates, by their paths."""

    def __init__(self, root: pathlib.Path) -> None:
        self.known: Dict[str, Definition] = {}
        self.inside: Dict[str, List[str]] = {}
        for kind in ("specs", "proofs"):
            for path in sorted(root.glob(f"crates/*/{kind}/**/*.antt")):
                if path.name not in ("Answers.antt", "Invariants.antt"):
                    self.read(path, ".".join(("Rattle", path.relative_to(root).parts[1], *path.relative_to(root).with_suffix("").parts[2:])))

    def read(self, path: pathlib.Path, module: str) -> None:
        """Adds the definitions of a file."""
        text = re.sub(r"--[^\n]*", "", path.read_text())
        uses = uses_of(USE, text)
        chunks: Dict[str, List[str]] = {}
        marks: Dict[str, Tuple[str, str]] = {}
        name = ""
        for line in text.splitlines():
            head = HEAD.match(line)
            if head is not None:
                name = head[3] or ""
                marks.setdefault(name, (head[1] or "", head[2] or ""))
            if name:
                chunks.setdefault(name, []).append(line)
        here = {known: f"{module}.{known}" for known in chunks}
        for name, lines in chunks.items():
            mark, kind = marks[name]
            whole = "\n".join(lines)
            statement = re.split(rf"\n{re.escape(name)}\b", whole)[0]
            self.known[f"{module}.{name}"] = Definition(mark != "abbrev " and kind not in ("record", "data"), whole, statement, {**here, **uses})

    def resolved(self, text: str, names: Dict[str, str]) -> Iterator[str]:
        """The paths of a text's names."""
        for found in NAME.finditer(text):
            path = names.get(found[0])
            if path is not None and path in self.known:
                yield path

    def about(self, text: str, names: Dict[str, str], opened: FrozenSet[str] = frozenset()) -> FrozenSet[str]:
        """The closed definitions that a text is about, if these are opened beside the abbreviations."""
        found: Set[str] = set()
        seen: Set[str] = set()
        queue = list(self.resolved(text, names))
        while queue:
            path = queue.pop()
            if path in seen:
                continue
            seen.add(path)
            known = self.known[path]
            if known.closed:
                found.add(path)
            if not known.closed or path in opened:
                if path not in self.inside:
                    self.inside[path] = list(self.resolved(known.text, known.uses))
                queue.extend(self.inside[path])
        return frozenset(found)
