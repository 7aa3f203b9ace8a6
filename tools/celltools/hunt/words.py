"""The members `places` and `words` that a part adds to the objects of the program: the file and the line of each instruction, and what the SPUs of an ending
wait for or what their faults were."""
import re
from typing import List, Mapping, NamedTuple, Optional, Sequence

from celltools.hunt.endings import STOPPED, Explained, has_fault, has_halt
from celltools.run.hunted import record_of_hunt
from celltools.run.runs import Refused
from celltools.run.snapshots import Snapshot
from celltools.source.sites import Sites
from celltools.telling.ended import failures_of
from celltools.telling.waiting import waiting_of

SITE = re.compile(r"\b(?:[xpear] (\d+) at 0x([0-9a-f]+)|(\d+) running at 0x([0-9a-f]+)|h (\d+))\b", re.A)


def place_of(sites: Sites, part: str) -> Optional[str]:
    """The file and the line of a part of a line, None where it is of no instruction or no line placed that. Refused where the machine has no such place."""
    found = SITE.fullmatch(part)
    if not found:
        return None
    step_of, step_at, spe_of, spe_at, action = found.groups()
    try:
        if action is not None:
            return f"{sites.machine}:{sites.script[int(action)][0]}"
        return place_at(sites, int(step_of or spe_of), int(step_at or spe_at, 16))
    except (IndexError, ValueError):  # also of a number with more digits than Python reads
        raise Refused(f"`{part}` is not a place of {sites.machine}: name the machine file of the hunt") from None


def place_at(sites: Sites, spe: int, address: int) -> Optional[str]:
    """The file and the line that placed an instruction; None if no line did."""
    site = sites.at(spe, address)
    return site.origin or f"{site.file}:{site.number}" if site.number else None


def places_of(sites: Sites, line: str) -> List[Optional[str]]:
    """The places of a line's parts, which stand behind bars."""
    return [place_of(sites, part) for part in line.split(" | ")[1:]]


class Ending(NamedTuple):
    """What is added to an ending: lines of words, and the places of faults and halts, by the processors."""
    words: Sequence[str] = ()
    places: Mapping[int, Optional[str]] = {}


class Explainer:
    """Says of endings what their processors wait for, and what their faults were and where, by making the first run of each once more."""

    def __init__(self, machine: Snapshot, seed: int) -> None:
        self.machine, self.seed, self.explained = machine, seed, Explained()

    def of(self, ending: str, run: int, sites: Sites) -> Ending:
        """What there is to say of the ending of a run; nothing of one where all has stopped as it should, nor where too many were explained."""
        if not self.explained.takes(ending):
            return Ending()
        record = record_of_hunt(self.machine, run, self.seed)
        waiting = [] if ending.startswith(STOPPED) else waiting_of(self.machine, record)
        failures = failures_of(self.machine, record) if has_fault(ending) or has_halt(ending) else []
        return Ending([*waiting, *(ended.line for ended in failures)], {ended.spe: place_at(sites, ended.spe, ended.address) for ended in failures})


def end_places(sites: Sites, ending: str, found: Ending) -> List[Optional[str]]:
    """The places of an ending's processors: of one that runs where it is, and of one with a fault or a halt where that came."""
    return [place or found.places.get(spe) for spe, place in enumerate(places_of(sites, ending))]
