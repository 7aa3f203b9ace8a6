"""The guarantees that a proof names.

In the proof of a function, `c.STEP.ensures.NAME` is the guarantee NAME of a function that it calls, and `c.STEP.ensures` the only guarantee of one that has a single
one. STEP is the call's name; a hyphen and a word, such as its `let`, tell it from other calls: `step`, `step-at`, `step-2`. In an arm of a `match` or a `?`, STEP is
`in-` or `in_ok-` with the pattern or the name bound. There the function is the only one of those matched or tried in this body that has such a guarantee.
A name that fits guarantees of several functions counts for none of them."""
import pathlib
import re
from typing import Dict, Iterator, List, NamedTuple, Set, Tuple

from lib.clauses.calls import Call
from lib.clauses.sources import LONE, Function
from lib.clauses.types import World

CITED = re.compile(r"(?<![\w.])?([A-Za-z_][\w+-]*)\.ensures\b(?:\.(\w+))?")
ARM = re.compile(r"in(?:_ok|_err|-|_default)")


class Guarantee(NamedTuple):
    """A guarantee of a function."""
    crate: str
    function: str
    clause: str


def guarantee(function: Function, clause: str) -> Guarantee:
    return Guarantee(function.file.crate, function.path, clause)


def has(function: Function, clause: str) -> bool:
    return any(it.name == clause for it in function.ensures)


def cited_clause(function: Function, name: str) -> str:
    """The guarantee of this function that `.ensures.NAME` is, or that `.ensures` is if it has one alone; nothing if it's none."""
    if name and has(function, name) and name != LONE:
        return name
    lone = [it.name for it in function.ensures]
    return lone[0] if len(lone) == 1 and (lone[0] == LONE or not name) else ""


def by_call(step: str, calls: List[Call]) -> List[Call]:
    """The calls that a step may be, by its name and, if it has one of a `let` behind it, by that."""
    name, _, more = step.partition("-")
    named = [call for call in calls if call.name == name]
    bound = [call for call in named if call.binds and (more == call.binds or more.startswith(call.binds + "-"))]
    return bound or named


def by_arm(step: str, calls: List[Call]) -> List[Call]:
    """The calls whose result an arm may have taken apart."""
    kind, _, more = step.partition("-")
    if kind in ("in_ok", "in_err"):
        tried = [call for call in calls if call.tried]
        first = more.split("-")[0]
        named = [call for call in tried if first and (call.binds == first or (call.name == first and not call.binds))]
        return named or tried
    return [call for call in calls if call.pattern] or [call for call in calls if call.binds]


def steps_cited(text: str) -> Set[Tuple[str, str]]:
    return {(found[1], found[2] or "") for found in CITED.finditer(re.sub(r"--[^\n]*", "", text))}


def cited(calls: List[Call], text: str) -> Iterator[Guarantee]:
    """The guarantees that a proof's text names, of a body with these calls."""
    for step, name in steps_cited(text):
        right = by_arm(step, calls) if ARM.match(step) and not any(call.name == step.partition("-")[0] for call in calls) else by_call(step, calls)
        if any(call.function is None and any(cited_clause(it, name) for it in call.maybe) for call in right):
            continue
        found = {guarantee(call.function, cited_clause(call.function, name)) for call in right if call.function is not None and cited_clause(call.function, name)}
        if len(found) == 1:
            yield found.pop()


def proof_folders(root: pathlib.Path) -> Dict[Tuple[str, ...], str]:
    """The texts of the proofs of a crate's functions, by the folder below proofs/."""
    found: Dict[Tuple[str, ...], str] = {}
    for path in sorted((root / "proofs").rglob("*.antt")):
        place = path.relative_to(root / "proofs").parts[:-1]
        if place and path.name in ("Answers.antt", "Invariants.antt", "Proof.antt"):
            found[place] = found.get(place, "") + path.read_text()
    return found


def folder_of(world: World, function: Function) -> Tuple[str, ...]:
    """The folder of a function's proof: its module, of a method that of its type, and the type."""
    shape = world.crates[function.file.crate].shapes.get(function.owner)
    module = shape.file.module if shape else function.file.module
    return (*module, *((function.owner,) if function.owner else ()), function.name)
