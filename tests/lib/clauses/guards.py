"""What guards each guarantee of a public function: a proof, a caller's contract or a mutant."""
import pathlib
import re
from typing import Dict, Iterator, List, NamedTuple, Tuple

from lib.clauses.calls import Body, Call
from lib.clauses.citing import Guarantee, cited, folder_of, guarantee, proof_folders
from lib.clauses.following import Following
from lib.clauses.sources import Crate, crates_of, is_exported
from lib.clauses.types import World
from lib.clauses.words import Words

BREAKS = re.compile(r"^# breaks (\S+) (\w+)$", re.M)
RULES = ("named", "word", "result", "state", "mutant")


class Guard(NamedTuple):
    """What guards a guarantee: by which rule, and the function whose proof needs it, or the mutant."""
    rule: str
    by: str


def of_proofs(world: World, root: pathlib.Path) -> Iterator[Tuple[Guarantee, Guard]]:
    """The guarantees that the proofs of all functions need."""
    following = Following(world, Words(root))
    for crate in world.crates.values():
        texts = proof_folders(root / "crates" / crate.name)
        for function in crate.functions:
            place = folder_of(world, function)
            proof = texts.get(place, "") or texts.get((*place[:-1], f"+{place[-1]}"), "")
            calls: List[Call] = list(Body(world, function).calls())
            found = (("named", cited(calls, proof)), ("word", following.by_word(function, calls, proof)), ("result", following.by_result(function, calls)),
                     ("state", following.by_state(function, calls)))
            for rule, guarantees in found:
                for one in guarantees:
                    yield one, Guard(rule, f"{crate.name} {function.path}")


def of_mutants(crates: Dict[str, Crate], root: pathlib.Path) -> Iterator[Tuple[Guarantee, Guard]]:
    """The guarantees that the mutants of a crate name as the ones that they break."""
    for path in sorted(root.glob("crates/*/must-fail/*.edit")):
        for function, clause in BREAKS.findall(path.read_text()):
            yield Guarantee(path.parts[-3], function, clause), Guard("mutant", path.name)


def guards_of(crates: Dict[str, Crate], root: pathlib.Path) -> Dict[Guarantee, Guard]:
    """What guards each guarantee; of several guards that of the first rule."""
    found: Dict[Guarantee, Guard] = {}
    for one, guard in (*of_proofs(World(crates), root), *of_mutants(crates, root)):
        if one not in found or RULES.index(guard.rule) < RULES.index(found[one].rule):
            found[one] = guard
    return found


def public_guarantees(crates: Dict[str, Crate]) -> List[Guarantee]:
    return [guarantee(function, clause.name) for crate in crates.values() for function in crate.functions if is_exported(crate, function) for clause in function.ensures]


def all_of(root: pathlib.Path) -> Tuple[List[Guarantee], Dict[Guarantee, Guard]]:
    """The guarantees of all public functions, and what guards them."""
    crates = crates_of(root)
    return public_guarantees(crates), guards_of(crates, root)
