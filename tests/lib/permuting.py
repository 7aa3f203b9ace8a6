"""What `cell permute` has to say of a run by the rules of settled_rules.py, compared with what it says.

The run is of a machine file in a folder, which also has its record as the file `record` and takes what is written.
"""
import pathlib
from typing import Iterable, List, NamedTuple, Optional, Sequence, Tuple

from celltools.run.effects import Trace
from celltools.run.records import record_text, steps_in
from lib.asking import Answer, output, said_of, trace_of
from lib.settled_rules import broken, reordering

TEN = range(10)
GREATEST = 4294967295
MANY, FEW = (*TEN, GREATEST), (0, 1, 2, 3, GREATEST)
RACE, SETTLED, UNSETTLED = "with a race", "settled", "not settled"
NOT_SETTLED = ("", "cell: the run is not settled\n", 6)


class Judged(NamedTuple):
    """What came of a run: what is wrong with what `permute` says of it, what it is, the clauses that it breaks, and how many numbers change it."""
    said: List[str]
    how: str
    clauses: List[str]
    changed: int



def moved(places: int, order: Sequence[int]) -> int:
    """A set of places, as bits, by where they stand in an order."""
    bits = f"{places:0{len(order)}b}"[::-1]
    return int("".join(map(bits.__getitem__, reversed(order))), 2)


def again(folder: pathlib.Path, machine: str, before: Sequence[int], order: Sequence[int], printed: str) -> List[str]:
    """What is wrong with a reordered run, which is traced anew: it is settled, and the same steps are ordered."""
    (folder / "again").write_text(printed)
    trace, found = trace_of(folder, machine, "again")
    wanted = [moved(before[place], order) for place in order]
    return [f"it breaks {name}" for name in broken(trace, found)] + ["other steps are ordered"] * (found != wanted)


def wanted_of(lines: Sequence[str], order: Iterable[int], states: str) -> Answer:
    """What `permute` has to write for an order of a run with these states, and its status."""
    return record_text([lines[place] for place in order]) + states, "", 0


def permuted(folder: pathlib.Path, machine: str, before: Sequence[int], numbers: Iterable[int], traced: Optional[int]) -> Tuple[List[str], int]:
    """Where `permute` of a settled run goes wrong, with these numbers, and how many of them change the run. That of the number `traced` is looked at anew."""
    lines = steps_in((folder / "record").read_text())
    states = output(["states", machine, "record"], folder)
    said: List[str] = []
    orders = {n: reordering(before, n) for n in numbers}
    for n, order in orders.items():
        found, wanted = said_of(folder, "permute", machine, "record", n), wanted_of(lines, order, states)
        if found != wanted:
            said.append(f"permute {n}: {wanted!r} is wanted, and {found!r} is said")
            continue
        (folder / "printed").write_text(found[0])
        checked = said_of(folder, "check", machine, "printed")
        said += [f"permute {n}: check says {checked} of it"] * (checked != (f"accepted {len(order)}\n", "", 0))
        said += [f"permute {n}: {line}" for line in again(folder, machine, before, order, found[0])] if n == traced else []
    return said, sum(order != list(range(len(order))) for order in orders.values())


def differences(folder: pathlib.Path, machine: str, wanted: Answer) -> List[str]:
    """Where `permute` doesn't answer so, whatever the number."""
    found = [said_of(folder, "permute", machine, "record", n) for n in FEW[:2]]
    return [f"permute: {wanted} is wanted, and {answer} is said" for answer in found if answer != wanted]


def judged(folder: pathlib.Path, machine: str, trace: Trace, before: Sequence[int], numbers: Iterable[int], traced: Optional[int]) -> Judged:
    """What comes of a run that has no race."""
    clauses = broken(trace, before)
    if clauses:
        return Judged(differences(folder, machine, NOT_SETTLED), UNSETTLED, clauses, 0)
    said, changed = permuted(folder, machine, before, numbers, traced)
    return Judged(said, SETTLED, clauses, changed)


def judged_with_race(folder: pathlib.Path, machine: str) -> Judged:
    """The same of a run that has one: `permute` answers as `check` does."""
    return Judged(differences(folder, machine, said_of(folder, "check", machine, "record")), RACE, [], 0)
