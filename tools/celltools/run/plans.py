"""What the lines of a machine file say, as the proved programs read them: `run_trace plan` prints those that have words."""
import functools
import tempfile
from typing import List, NamedTuple, Optional, Tuple

from celltools.common.texts import bytes_of
from celltools.run.runs import Path, Refused, asked, said_of

MOST_KEPT = 100  # machine files
NO_PROCESSOR = "-"


class PlanLine(NamedTuple):
    """A line: its number from 1, the processor that it is of, None where it is of none, and its words."""
    number: int
    spe: Optional[int]
    words: List[str]


def plan_line(line: str) -> PlanLine:
    number, spe, *words = line.split(" ")
    return PlanLine(int(number), None if spe == NO_PROCESSOR else int(spe), words)


@functools.lru_cache(maxsize=MOST_KEPT)  # by the text: on the page a file of one name changes
def plan_of(text: bytes) -> Tuple[PlanLine, ...]:
    """The lines of a machine file that have words. Refused, as `cell` says it, where the text is none."""
    with tempfile.NamedTemporaryFile("wb", suffix=".cell") as file:
        file.write(text)
        file.flush()
        done = asked("run_trace", "plan", file.name)
    if done.returncode:
        raise Refused(said_of(done))
    return tuple(map(plan_line, done.stdout.splitlines()))


def sources_in(text: bytes) -> List[str]:
    """The sources that a machine file names, in the order of its lines."""
    return [line.words[1] for line in plan_of(text) if line.words[0] == "source"]


def sources_of(machine: Path) -> List[str]:
    """The same, of a file. OSError where it can't be read."""
    return sources_in(bytes_of(machine))
