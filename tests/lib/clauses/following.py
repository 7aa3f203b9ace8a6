"""The guarantees without which the contract of a caller doesn't follow, though no proof names them: the prover's search finds them by itself.

*Word.* A clause that a caller has to prove is about a closed definition, and of all that the caller knows one guarantee alone is about it: then that is needed. The
caller knows its preconditions, the invariants of its crate's types, the guarantees of all that it calls, and the lemmas that its proof names. What stands before an
arrow is a premise: nobody has to prove it there, and nobody knows it from there.

*Result.* A caller guarantees something of its result, on one of its ways it returns what a call returns, and one guarantee alone of the called function is about that.

*State.* A caller guarantees something of the new value of a parameter, or says what `self` becomes. One call alone changes that, or a field of it, and one guarantee
alone of the called function is about the new value."""
import re
from typing import Callable, Dict, FrozenSet, Iterator, List, Set, Tuple

from lib.clauses.calls import Call
from lib.clauses.citing import Guarantee, guarantee
from lib.clauses.sources import Clause, Crate, Function, uses_of
from lib.clauses.types import World
from lib.clauses.words import USE, Words, conclusion

UNFOLDING = re.compile(r"^\s*unfolding ([^\n]*)", re.M)
MEMBERS = {"files", "ledger", "taken", "faults", "stopped"}  # what the traits of files, output and progress show
OPENED = re.compile(r"unfolding\(([^)]*)\)")


def opened_names(function: Function, proof: str) -> Set[str]:
    """The names that a proof opens: by its `unfolding` lines and by the function's attribute."""
    names = {name for line in UNFOLDING.findall(proof) for name in line.split()}
    return names | {path.split("::")[-1].strip() for said in OPENED.findall(function.attributes) for path in said.split(",")}


class Following:
    """What is looked up often: the words of the clauses, and the invariants of each crate."""

    def __init__(self, world: World, words: Words) -> None:
        self.world, self.words = world, words
        self.invariants = {crate.name: self.of_invariants(crate) for crate in world.crates.values()}
        self.kept: Dict[Tuple[int, str], FrozenSet[str]] = {}

    def of_invariants(self, crate: Crate) -> FrozenSet[str]:
        return frozenset(word for file, text in crate.invariants for word in self.words.about(conclusion(text), file.ghosts))

    def about(self, function: Function, text: str) -> FrozenSet[str]:
        key = (id(function.file), text)
        if key not in self.kept:
            self.kept[key] = self.words.about(text, function.file.ghosts)
        return self.kept[key]

    def of_lemmas(self, proof: str) -> FrozenSet[str]:
        """What the statements of the lemmas that a proof brings in are about."""
        found: Set[str] = set()
        for path in uses_of(USE, proof).values():
            known = self.words.known.get(path)
            if known is not None and ".proofs." in path:
                found |= self.words.about(conclusion(known.statement), known.uses)
        return frozenset(found)

    def by_word(self, function: Function, calls: List[Call], proof: str) -> Iterator[Guarantee]:
        """The guarantees that this function needs since no other fact is about a word of what it has to prove."""
        opened = opened_names(function, proof)
        known: Dict[str, Set[Guarantee]] = {}
        others: Set[str] = set(self.invariants[function.file.crate]) | self.of_lemmas(proof)
        for clause in function.requires:
            others |= self.about(function, conclusion(clause.text))
        wanted: Set[str] = set()
        for clause in function.ensures:
            wanted |= self.about(function, conclusion(clause.text))
        for call in calls:
            for it in call.maybe:
                if call.function is not None:
                    for clause in it.requires:
                        wanted |= self.about(it, conclusion(clause.text))
                for clause in it.ensures:
                    for word in self.about(it, conclusion(clause.text)):
                        known.setdefault(word, set()).add(guarantee(it, clause.name))
        sure = {(call.function.file.crate, call.function.path) for call in calls if call.function is not None}
        for word in wanted - others:
            right = known.get(word, set())
            if word.split(".")[-1] not in opened and len(right) == 1:
                one = next(iter(right))
                if (one.crate, one.function) in sure:
                    yield one

    def by_result(self, function: Function, calls: List[Call]) -> Iterator[Guarantee]:
        """The guarantees on a result that this function returns as its own."""
        for call in calls:
            if call.function is not None and call.returned:
                for one in alone(call.function.ensures, about_result):
                    if any(about_result(clause) and self.says_much(function, clause) and meets(one, clause, True) for clause in function.ensures):
                        yield guarantee(call.function, one.name)

    def by_state(self, function: Function, calls: List[Call]) -> Iterator[Guarantee]:
        """The guarantees on a parameter that this function has changed by one call alone."""
        for call in calls:
            for argument, (name, kind) in zip(call.arguments, call.function.parameters if call.function is not None else ()):
                bare = re.sub(r"^&\s*mut ", "", argument)
                if call.function is None or "mut " not in kind or not self.is_changed_once(function, calls, bare):
                    continue
                for member in ("", *sorted(MEMBERS)):
                    for one in alone(call.function.ensures, lambda clause: member in states_of(clause, name)):
                        if any(member in states_of(clause, bare.split(".")[0]) and meets(one, clause, call.tried or call.returned)
                               and (member or self.says_much(function, clause)) and ("." not in bare or pins(clause)) for clause in function.ensures):
                            yield guarantee(call.function, one.name)

    def is_changed_once(self, function: Function, calls: List[Call], place: str) -> bool:
        """Whether a parameter, or a field of `self` that its model shows, is passed on by one call alone, and changed nowhere else."""
        root, _, field = place.partition(".")
        if not re.fullmatch(r"\w+(?:\.\w+)?", place) or not any(name == root and "mut " in kind for name, kind in function.parameters):
            return False
        if not field:
            return len(re.findall(rf"\b{root}\b", function.body)) == 1
        views = [text for file, text in self.world.crates[function.file.crate].views if file is self.file_of(function)]
        shown = not views or any(re.search(rf"\.{field}\b", view) for view in views)
        others = [call for call in calls if any(it.startswith(place) or it.startswith(f"&mut {place}") or it in (root, f"&mut {root}") for it in call.arguments)]
        changing = [call for call in others if call.function is None or f"&mut {place}" in " ".join(call.arguments)
                    or any("mut " in kind for _, kind in call.function.parameters[:1])]
        return root == "self" and shown and len(changing) == 1 and not re.search(rf"\bself\.{field}\b[^;=]*[^=!<>]=[^=>]", function.body)

    def file_of(self, function: Function) -> object:
        """The file in which a method's type is declared."""
        shape = self.world.crates[function.file.crate].shapes.get(function.owner)
        return shape.file if shape else function.file

    def says_much(self, function: Function, clause: Clause) -> bool:
        """Whether a guarantee is more than a bound, which may hold of every value."""
        return any(sign in clause.text for sign in "≡↔") or any(True for _ in self.words.resolved(clause.text, function.file.ghosts))


def case_of(clause: Clause) -> str:
    """For which results a guarantee says something: `ok`, `err`, or nothing if it does for all."""
    head = re.match(r"(IfOk|OnOk|IfSome|OnSome|IfErr|OnErr|IfNone|OnNone) result\b", clause.text)
    return "" if head is None else "ok" if head[1][2:] in ("Ok", "Some") else "err"


def about_result(clause: Clause) -> bool:
    """Whether a guarantee is about the result's value, and not only about its kind."""
    head = re.match(r"(?:If|On)(?:Ok|Some|Err|None) result\b(?: \(λ (_)\.)?", clause.text)
    if head is None:
        return re.search(r"\bresult\b", conclusion(clause.text)) is not None
    return head[1] is None and (clause.text.startswith("If") or re.search(r"\bresult\b", clause.text[head.end():]) is not None)


def states_of(clause: Clause, name: str) -> Set[str]:
    """The members of traits that a guarantee is about at a parameter's new value; an empty name if it's about the value itself."""
    found = re.finditer(rf"(?:(?:\w+\.)?(\w+) )?\b{re.escape(name)}\.new\b", conclusion(clause.text))
    return {it[1] if it[1] in MEMBERS else "" for it in found}


def alone(clauses: Tuple[Clause, ...], is_about: Callable[[Clause], bool]) -> Iterator[Clause]:
    """Each guarantee that is the only one about something for its results."""
    about = [clause for clause in clauses if is_about(clause)]
    for clause in about:
        if all(it is clause or (case_of(it) and case_of(clause) and case_of(it) != case_of(clause)) for it in about):
            yield clause


def meets(one: Clause, clause: Clause, is_passed_on: bool) -> bool:
    """Whether a caller's guarantee has to hold for results for which the called function gives this one."""
    return not case_of(one) or not case_of(clause) or (case_of(one) == case_of(clause) and is_passed_on)


def pins(clause: Clause) -> bool:
    """Whether a guarantee says what the whole of `self` becomes."""
    return re.search(r"\bself\.new ≡ ", clause.text) is not None
