"""Says in words why a step isn't allowed where a record has it."""
import os
import pathlib
from typing import List, Sequence

from celltools.run.machine_state import Spe, State, actor_of
from celltools.run.records import record_text
from celltools.run.runs import Path
from celltools.run.stepping import Run
from celltools.source.sites import Sites
from celltools.telling.states import ENDS, Words


def reason(machine: Path, folder: str, heads: Sequence[str], place: int) -> List[str]:
    """Why the step at a place of a record isn't allowed, the first that isn't."""
    room = os.path.join(folder, "before")
    os.makedirs(room, exist_ok=True)
    record = os.path.join(room, "witness")
    pathlib.Path(record).write_text(record_text(heads[:place]))
    run = Run(machine, room)
    run.follow(record)
    run.place = place
    return of_step(Words(run, Sites(machine)), run.state(), heads[place])


def of_step(words: Words, state: State, head: str) -> List[str]:
    kind, number = actor_of(head)
    if state.end == "Budget":
        return [ENDS["Budget"]]
    if kind == "h":
        return [line.strip() for line in words.host(state)] or ["the machine file has no host actions"]
    if number is None or number >= len(state.spes):
        return [f"the machine file has no SPU {number}"]
    spe = state.spes[number]
    return of_processor(words, state, spe) if kind == "x" else of_controller(words, state, spe, head)


def of_processor(words: Words, state: State, spe: Spe) -> List[str]:
    """Where a processor stands, and what it waits for, or what its fault was."""
    remark = words.remark(spe, state)
    return [words.stands(spe), *([remark] if remark else [])]


def of_controller(words: Words, state: State, spe: Spe, head: str) -> List[str]:
    """What a flow controller has to do."""
    if spe.status.startswith("dmafault"):
        return [f"SPU {spe.number} has a fault ({spe.status}), so its MFC makes no more steps"]
    if head.startswith("a "):
        return [f"SPU {spe.number} has no outstanding atomic command"]
    key = spe.number, int(head.split()[2])
    if key not in words.run.trace.commands:
        return [f"command {key[1]} of SPU {spe.number} has not been issued"]
    return [f"outstanding commands of SPU {spe.number}:", *words.queue(spe.number, state)]
