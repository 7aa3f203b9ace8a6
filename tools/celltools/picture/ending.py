"""How a run ended: how well, and for each processor and command that waits or has a fault, why and its last step."""
import dataclasses
import enum
from typing import TYPE_CHECKING, Callable, Dict, Iterator, List, Optional, Tuple

from celltools.order.graph import HOST
from celltools.run.effects import Key
from celltools.telling.ended import failures_of
from celltools.telling.ends import Last, first_to_see
from celltools.telling.waiting import waiting_of
from celltools.telling.words import name_of, with_article

if TYPE_CHECKING:
    from celltools.picture.run import Run

TITLES = {"Stuck": "Why the run is deadlocked", "Budget": "Where the budget ended", "Open": "Where the record ends"}
WORDS = {"Stuck": "deadlock (Stuck)", "Budget": "Budget: all {count:,} steps are spent", "Open": "Open: the run can go on"}
MOST_NAMED = 3  # processors that are told by their numbers
Said = Tuple[str, Optional[int]]  # what is told of an actor or a command, and its last step, if it made one


class Level(enum.Enum):
    """How well a run ended, as the page's colours have it."""
    GOOD = "good"
    WARNED = "warned"  # it stopped before its programs' ends
    BAD = "bad"        # it has a race or a fault


@dataclasses.dataclass(frozen=True)
class Ending:
    level: Level
    words: str        # beside the verdict
    title: str        # of what is told
    said: List[Said]  # of a run that ended well nothing
    last: Optional[int]  # the last step of the processor at which to look first, if one failed or waits

    @property
    def told(self) -> Dict[str, object]:
        """As the page has it."""
        return {"level": self.level.value, "words": self.words, "title": self.title, "said": self.said}


def ending_of(run: "Run") -> Ending:
    """How a run ended."""
    words = list(words_of(run))
    is_well = words == ["AllStopped"]
    level = Level.BAD if run.pair or spes_that(run, "is_fault") else Level.GOOD if is_well else Level.WARNED
    return Ending(level, ", ".join(words), TITLES.get(run.end.word, "How it ended"), [] if is_well else list(said_of(run)), last_to_see(run))


def last_to_see(run: "Run") -> Optional[int]:
    """The last step of the processor at which to look first: of one that halted or has a fault, or of a run that is stuck of one that waits."""
    waiting = spes_that(run, "is_running") if run.end.word == "Stuck" else []
    found = first_to_see([Last(last_step(run, spe), spe) for spe in spes_that(run, "has_failed")], [Last(last_step(run, spe), spe) for spe in waiting])
    return max(0, found.place) if found else None


def last_step(run: "Run", spe: int) -> int:
    """The last step of a processor; of one that has a fault also that of its flow controller, which makes none after it. -1 if it made none."""
    own = last_of(run, spe)
    if not run.end.spes[spe].is_fault:
        return -1 if own is None else own
    return next((place for place in range(run.count - 1, -1, -1) if run.trace.steps[place].spe == spe), -1)


def words_of(run: "Run") -> Iterator[str]:
    """The end word, with what else there is to know."""
    running, faults, halted = (spes_that(run, kind) for kind in ("is_running", "is_fault", "is_halted"))
    yield WORDS.get(run.end.word, run.end.word).format(count=run.count)
    if running:
        yield f"{named(running)} {agreed(running, 'wait' if run.end.word == 'Stuck' else 'run')}"
    if faults:
        yield f"{named(faults)} {'has' if len(faults) == 1 else 'have'} a fault"
    if halted:
        yield f"{named(halted)} halted"
    done, actions = run.end.host
    if done < actions and run.end.word in ("AllStopped", "Stuck"):
        yield f"{done} of {actions} host actions done"


def spes_that(run: "Run", kind: str) -> List[int]:
    """The processors that stood so at the end."""
    return [spe for spe, status in enumerate(run.end.spes) if getattr(status, kind)]


def named(spes: List[int]) -> str:
    """Processors by their numbers, or where they are many by how many they are."""
    if len(spes) > MOST_NAMED:
        return f"{len(spes)} SPUs"
    numbers = list(map(str, spes))
    return f"SPU {numbers[0]}" if len(spes) == 1 else f"SPUs {', '.join(numbers[:-1])} and {numbers[-1]}"


def agreed(spes: List[int], verb: str) -> str:
    return f"{verb}s" if len(spes) == 1 else verb


def said_of(run: "Run") -> Iterator[Said]:
    """What each processor, command and the host waits for, has or did at the end."""
    yield from of_processors(run, "is_running", waiting_of)
    yield from of_processors(run, "has_failed", lambda machine, record: [ended.line for ended in failures_of(machine, record)])
    for spe, number in sorted(run.end.outstanding):
        steps = run.steps_of((spe, number))
        yield command_wait(run, (spe, number)), steps[-1] if steps else run.trace.issues[spe, number]
    done, actions = run.end.host
    if done < actions:
        yield f"the host waits at action {done}, {run.sites.action(done)}", last_of(run, HOST)


def of_processors(run: "Run", kind: str, lines_of: Callable[..., List[str]]) -> Iterator[Said]:
    """What is told of the processors that stood so, a line each."""
    spes = spes_that(run, kind)
    return zip(lines_of(run.machine, run.record), [last_of(run, spe) for spe in spes]) if spes else iter(())


def last_of(run: "Run", chain: int) -> Optional[int]:
    """The last step of a processor's program, or of the host's script; None where it made none."""
    found = run.order.chains.tobytes().rfind(chain.to_bytes(1, "little", signed=True))
    return None if found < 0 else found


def command_wait(run: "Run", key: Key) -> str:
    """Why a command isn't done."""
    member = run.order.commands[key]
    name = f"{with_article(name_of(member.command))} with tag {member.command.tag} (command {key[1]} of SPU {key[0]})"
    if key in run.end.stalled:
        return f"{name} is stalled after list element {len(member.elements) - 1} until its tag is acknowledged (wrch $ch26)"
    held = [node for node, rule in member.entry if rule == "Queue" and any(is_within(run, other, node) for other in run.end.outstanding)]
    return f"{name} is not complete" + (": it waits for an earlier command   [Queue]" if held else "")


def is_within(run: "Run", key: Key, node: int) -> bool:
    """Whether a command is one of a set of commands."""
    sets, wanted = run.order.sets, run.order.commands[key].steps
    while node != wanted and len(sets[-node - 1]) > 1 and sets[-node - 1][-1] != wanted:
        node = sets[-node - 1][0]
        if node >= 0:
            return False
    return node == wanted or sets[-node - 1][-1:] == [wanted]
