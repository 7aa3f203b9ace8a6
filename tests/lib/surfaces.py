"""The public types and calls of a crate, read from its sources: types with their variants or public fields, calls with the types of their parameters and results."""
import pathlib
import re
from typing import Dict, FrozenSet, Iterator, List, NamedTuple, Tuple

OPENING, CLOSING = "{(<[", "})>]"
TYPE = re.compile(r"\bpub (enum|struct|trait) (\w+)")
IMPL = re.compile(r"\bimpl(?:<[^{]*?>)?\s+(?:[\w:]+(?:<[^{]*?>)?\s+for\s+)?(\w+)(?:<[^{]*?>)?\s*(?:where[^{]*)?\{")
CALL = re.compile(r"\bfn (\w+)\s*(?:<(?:[^<>]|<[^<>]*>)*>)?\s*\(")
NAME = re.compile(r"\bpub use [^;]*;|\bpub (?:fn|enum|struct|trait|const) \w+")


class Call(NamedTuple):
    """The types of a call's parameters, and of its result."""
    parameters: Tuple[str, ...]
    result: str


class Surface(NamedTuple):
    """What a text declares: of each type its kind and its parts, of each call, by its owner and name, its forms; and the names that leave the crate."""
    types: Dict[str, Tuple[str, FrozenSet[str]]]
    calls: Dict[str, List[Call]]
    names: FrozenSet[str]


def squeezed(text: str) -> str:
    """The text without blanks, and without a comma before a closing bracket."""
    return re.sub(r",([})\]>])", r"\1", re.sub(r"\s+", "", text))


def plain(text: str) -> str:
    """The text without comments and attributes."""
    return re.sub(r"#!?\[[^]]*\]", "", re.sub(r"//[^\n]*", "", text))


def end_of(text: str, at: int) -> int:
    """Where the bracket at this place is closed."""
    depth = 0
    for place in range(at, len(text)):
        depth += (text[place] in "{([") - (text[place] in "})]")
        if depth == 0:
            return place
    return len(text)


def parts(text: str) -> Iterator[str]:
    """What stands between the commas outside brackets."""
    depth, begin = 0, 0
    for place, sign in enumerate(text):
        arrow = sign == ">" and text[place - 1:place] == "-"
        depth += (sign in OPENING) - (sign in CLOSING and not arrow)
        if sign == "," and depth == 0:
            yield text[begin:place].strip()
            begin = place + 1
    if text[begin:].strip():
        yield text[begin:].strip()


def type_of(parameter: str) -> str:
    """The type of a parameter; `self` as it is taken."""
    bare = re.sub(r"^(?:mut\s+)?(\w+)\s*:\s*", "", parameter)
    return re.sub(r"^mutself$", "self", squeezed(bare))


def result_at(text: str) -> str:
    """The type behind an arrow, which a clause, a body or another item ends; nothing if there is no arrow."""
    arrow = re.match(r"\s*->\s*", text)
    if arrow is None:
        return ""
    depth, begin = 0, arrow.end()
    for place in range(begin, len(text)):
        sign = text[place]
        depth += (sign in "<([") - (sign in ">)]")
        if depth == 0 and (sign in "{;\n" or text.startswith("pub", place)):
            return squeezed(text[begin:place])
    return squeezed(text[begin:])


def calls_in(text: str, owner: str, found: Dict[str, List[Call]]) -> None:
    """Adds the calls of a text, under their owner's name if they have one."""
    for head in CALL.finditer(text):
        close = end_of(text, head.end() - 1)
        taken = tuple(type_of(it) for it in parts(text[head.end():close]))
        name = f"{owner}::{head[1]}" if owner else head[1]
        found.setdefault(name, []).append(Call(taken, result_at(text[close + 1:])))


def shape(kind: str, text: str, at: int) -> FrozenSet[str]:
    """The variants of an enum, or the public fields of a struct, whose head ends here."""
    body = re.match(r"\s*(?:<[^>]*>)?\s*\{", text[at:])
    if body is None or kind == "trait":
        return frozenset()
    begin = at + body.end()
    listed = [squeezed(part) for part in parts(text[begin:end_of(text, begin - 1)])]
    return frozenset(listed if kind == "enum" else [part[3:] for part in listed if part.startswith("pub") and not part.startswith("pub(")])


def surface_of(source: str) -> Surface:
    """What a source declares."""
    text = plain(source)
    types = {head[2]: (head[1], shape(head[1], text, head.end())) for head in TYPE.finditer(text)}
    calls: Dict[str, List[Call]] = {}
    outside, begin = "", 0
    for head in [*IMPL.finditer(text), *re.finditer(r"\bpub trait (\w+)[^{]*\{", text)]:
        calls_in(text[head.end():end_of(text, head.end() - 1)], head[1], calls)
    for head in sorted(IMPL.finditer(text), key=lambda it: it.start()):
        outside += text[begin:head.start()] if begin <= head.start() else ""
        begin = max(begin, end_of(text, head.end() - 1))
    calls_in(outside + text[begin:], "", calls)
    return Surface(types, calls, frozenset(re.findall(r"\w+", " ".join(NAME.findall(text)))))


def surface_of_crate(folder: pathlib.Path) -> Surface:
    """What the sources of a crate declare, and the names that its root lets out."""
    types: Dict[str, Tuple[str, FrozenSet[str]]] = {}
    calls: Dict[str, List[Call]] = {}
    for path in sorted((folder / "src").rglob("*.rt")):
        found = surface_of(path.read_text())
        types.update(found.types)
        for name, forms in found.calls.items():
            calls.setdefault(name, []).extend(forms)
    root = folder / "src" / "lib.rt"
    return Surface(types, calls, surface_of(root.read_text()).names if root.exists() else frozenset())
