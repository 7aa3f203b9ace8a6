"""Where a debugger's session begins."""
from typing import List, NamedTuple, Optional, Tuple

from celltools.common.texts import number_of
from celltools.run.machine_state import Spe, State
from celltools.run.runs import Path, Refused, verdict
from celltools.run.stepping import Run
from celltools.telling.ended import HALTED, has_failed, has_fault
from celltools.telling.ends import Last, first_to_see
from celltools.telling.words import counted

STUCK, BUDGET = "Stuck", "Budget"
ENDS = {STUCK: "deadlock (Stuck)", BUDGET: "budget spent (Budget)"}
TO_THE_END = "`run` goes to the end"


class Opening(NamedTuple):
    """How a session begins: what is said of it, and the processor that is looked at, None for that of the next step."""
    said: List[str]
    spe: Optional[int] = None


def opened(run: Run, record: Optional[Path], words: Tuple[str, ...]) -> Opening:
    """Takes a session's run to its place: after as many steps of a record as the words say, or else where there is most to see."""
    if record is None:
        return Opening([])
    run.follow(record)
    if words:
        run.place = place_in(run, words[0])
        return Opening([])
    count = run.ahead
    run.place, spe, why = chosen(run, record)
    return Opening([f"{counted(count, 'step')}; {why}"], spe)


def place_in(run: Run, word: str) -> int:
    """The number of steps of a record after which a session begins."""
    place = number_of(word, run.ahead)
    if place is None:
        raise Refused(f"`{word}` is not a number of steps of this record: give 0 to {run.ahead}")
    return place


def chosen(run: Run, record: Path) -> Tuple[int, Optional[int], str]:
    """After how many steps of a record there is most to see, at which processor, and why."""
    end = run.ahead
    state = run.state(end)
    last = first_to_see([last_of(run, spe) for spe in state.spes if has_failed(spe)], [last_of(run, spe) for spe in state.spes if spe.runs])
    if last and (state.end == STUCK or has_failed(state.spes[last.spe])):
        return last.place + 1, last.spe, at_last_step(state, last, end)
    if state.end in ENDS:
        return end, last.spe if last else None, f"starting at the end: {ENDS[state.end]}"
    race = race_of(run, record)
    if race:
        return race[1], None, f"starting before step {race[1]}, the second step of race {race[0]} {race[1]} (`back to {race[0]}` goes to the first)"
    return 0, None, "starting at the beginning: the run has no race, halt or fault"


def at_last_step(state: State, last: Last, end: int) -> str:
    """What is said of a session that begins after the last step of a processor."""
    spe = state.spes[last.spe]
    if last.place + 1 == end:
        return f"starting at the end: {f'SPU {spe.number} {spe.status}' if has_failed(spe) else ENDS[STUCK]}"
    step = f"after step {last.place}, the last step of SPU {spe.number}" if last.place >= 0 else f"at the beginning, since SPU {spe.number} made no step"
    if not has_failed(spe):
        return f"deadlock at the end; starting {step}, which waits ({TO_THE_END})"
    return f"starting {step}, which {'halted' if spe.status == HALTED else f'has a fault, {spe.status}'} ({TO_THE_END})"


def last_of(run: Run, spe: Spe) -> Last:
    """The last step of a processor; of one that has a fault also that of its flow controller, which makes none after it."""
    own = f"x {spe.number}"
    actors = [spe.number] if has_fault(spe) else []
    place = next((place for place in range(len(run.heads) - 1, -1, -1) if run.heads[place] == own or processor_of(run.heads[place]) in actors), -1)
    return Last(place, spe.number)


def processor_of(head: str) -> Optional[int]:
    """The processor of a step, None for the host's."""
    words = head.split()
    return int(words[1]) if len(words) > 1 else None


def race_of(run: Run, record: Path) -> Optional[Tuple[int, int]]:
    """The race that `check` finds; None if it finds none."""
    said = verdict(run.machine, record)[0].split()
    return (int(said[1]), int(said[2])) if said[0] == "race" else None
