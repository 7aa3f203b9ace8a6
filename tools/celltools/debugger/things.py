"""What a step may do to a thing that a debugger's user names: it writes bytes or a register, or something happens in it."""
import dataclasses
from typing import Iterator, List, Optional, Sequence

from celltools.common.texts import number_of
from celltools.debugger.grammar import Bytes, Grammar, Register
from celltools.debugger.places import Wrong
from celltools.run.effects import MEMORY_LINE, Span, Trace
from celltools.run.stepping import Run
from celltools.source.channels import VALUES
from celltools.source.names import Names
from celltools.source.sites import Sites
from celltools.source.target_registers import target_of
from celltools.telling.ended import Endings
from celltools.telling.executed import Executed
from celltools.telling.happenings import Happening, Happenings, Key, Kind
from celltools.telling.states import dump, quad
from celltools.telling.waiting import Standing

SETS = (Kind.EVENT, Kind.STALL, Kind.TAG)  # whose keys are sets of bits
ENDS = (Kind.FAULT, Kind.HALT, Kind.STOP)  # of SPUs
SHOWN = 16  # bytes of a range that are shown
KINDS = {kind.value: kind for kind in Kind}
BOXES = ("in", "out", "intr")
KEYS = {
    Kind.MAILBOX: "in, out or intr", Kind.SIGNAL: "1 or 2", Kind.EVENT: "the bits of an event or its name, such as 0x10 or MFC_IN_MBOX_AVAILABLE_EVENT",
    Kind.STALL: "a tag, from 0 to 31", Kind.TAG: "a tag, from 0 to 31", Kind.RESERVATION: "the address of a line of main memory",
    Kind.ATOMIC: "the address of a line of main memory",
}  # fmt: skip


class Thing:
    """What a step may do something to. `text` is how it was typed."""
    text: str

    def does(self, place: int) -> bool:
        """Whether the step at a place does something to it."""
        raise NotImplementedError

    def told(self, run: Run, place: int) -> List[str]:
        """What the step at a place did to it."""
        raise NotImplementedError

    @property
    def deed(self) -> str:
        """What a step does, as the end of a sentence."""
        raise NotImplementedError


@dataclasses.dataclass
class Range(Thing):
    """Bytes: a step writes one of them."""
    text: str
    bytes: Bytes
    trace: Trace
    names: Names

    def __str__(self) -> str:
        return f"{self.text}{self.bytes.addressed}"

    def does(self, place: int) -> bool:
        if " | write " not in self.trace.lines[place]:
            return False
        span, written = self.bytes.span, self.trace.steps[place].writes
        return written is not None and written.spe == span.spe and written.at < span.at + span.size and span.at < written.at + written.size

    def told(self, run: Run, place: int) -> List[str]:
        """The bytes that were written, before and after."""
        watched, written = self.bytes.span, self.trace.steps[place].writes
        if written is None:
            return []
        at = max(watched.at, written.at)
        span = Span(watched.spe, at, min(SHOWN, min(watched.at + watched.size, written.at + written.size) - at))
        return [f"    {when:6} {line}" for when, behind in (("before", place), ("after", place + 1))
                for line in dump(span, run.bytes_of(span, behind), self.names)]

    @property
    def deed(self) -> str:
        return f"writes {self}"


@dataclasses.dataclass
class Target(Thing):
    """A register: an instruction writes it."""
    text: str
    register: Register
    executed: Executed

    def __str__(self) -> str:
        return f"${self.register.number} of SPU {self.register.spe}"

    def does(self, place: int) -> bool:
        fetched = self.executed.fetched(place)
        return (fetched is not None and fetched[0] == self.register.spe and " | ended" not in self.executed.trace.lines[place]
                and target_of(self.executed.word(place)) == self.register.number)

    def told(self, run: Run, place: int) -> List[str]:
        return [f"    {when:6} ${self.register.number} = {quad(run.state(behind).spes[self.register.spe or 0].register(self.register.number))}"
                for when, behind in (("before", place), ("after", place + 1))]

    @property
    def deed(self) -> str:
        return f"writes {self}"


@dataclasses.dataclass
class Matter(Thing):
    """What happens at processors: all of one kind, or those of one processor or one key."""
    text: str
    kind: Kind
    spe: Optional[int]
    key: Key
    happenings: Happenings
    endings: Endings

    def __str__(self) -> str:
        return self.text

    def found(self, place: int) -> List[Happening]:
        return [it for it in self.happenings.of(place)
                if it.kind == self.kind and self.spe in (None, it.spe) and (self.key is None or self.is_key(it.key))]

    def is_key(self, key: Key) -> bool:
        """Whether a happening's key is the one that is asked for: of events, stalls and tags it is a set of bits."""
        if isinstance(self.key, int) and isinstance(key, int) and self.kind in SETS:
            return bool(self.key & key)
        return self.key == key

    def does(self, place: int) -> bool:
        return bool(self.found(place))

    def told(self, run: Run, place: int) -> List[str]:
        return [f"    {self.end_line(run, it) if self.kind in ENDS else it.words}" for it in self.found(place)]

    def end_line(self, run: Run, happening: Happening) -> str:
        """How an SPU ended in the step of a happening."""
        state = run.state(happening.place + 1)
        return self.endings.line(state.spes[happening.spe], state)

    @property
    def deed(self) -> str:
        return f"involves `{self.text}`"


class Things:
    """Reads the words that name a thing."""

    def __init__(self, grammar: Grammar, trace: Trace, sites: Sites) -> None:
        self.grammar, self.trace, self.names = grammar, trace, sites.names
        self.executed = Executed(trace, sites, grammar.run.bytes_of)
        self.happenings = Happenings(trace, self.executed)
        self.endings = Endings(grammar.run, Standing(sites))

    def thing(self, words: Sequence[str], looked_at: int) -> Thing:
        """The thing that words name."""
        spe, rest = self.grammar.owned(words)
        owner = looked_at if spe is None else spe
        if rest and rest[0] in KINDS and not self.grammar.places.label(rest[0], owner):
            return Matter(" ".join(words), KINDS[rest[0]], spe, self.key(KINDS[rest[0]], rest[1:]), self.happenings, self.endings)
        register = self.grammar.register(rest[0], owner) if len(rest) == 1 else None
        if register:
            return Target(" ".join(words), register, self.executed)
        if rest and rest[0] not in ("mem", "ls") and self.grammar.address(rest[0], owner) is None:
            raise Wrong(f"`{rest[0]}` is not an address, a label or register of SPU {owner}, or one of {', '.join(KINDS)} (see `help watch`)")
        found = self.grammar.bytes(words, looked_at)
        size = [] if len(rest) > {"mem": 2, "ls": 3}.get(rest[0], 1) else [str(found.span.size)]
        return Range(" ".join([*words, *size]), found, self.trace, self.names)

    def key(self, kind: Kind, words: Sequence[str]) -> Key:
        """What the words behind a kind name; None where there are none."""
        if not words:
            return None
        found = key_of(kind, words[0]) if len(words) == 1 and kind in KEYS else None
        if found is None:
            what = f"type {KEYS[kind]}" if kind in KEYS else "type it alone, or after an SPU such as x1"
            raise Wrong(f"`{' '.join(words)}` does not fit `{kind.value}`: {what}")
        return found


def key_of(kind: Kind, word: str) -> Key:
    """The key that a word is; None where it is none of that kind."""
    if kind == Kind.MAILBOX:
        return word if word in BOXES else None
    number = VALUES.get(word) if kind == Kind.EVENT and word in VALUES else number_of(word)
    if number is None:
        return None
    if kind in (Kind.STALL, Kind.TAG):
        return 1 << number if number < 32 else None
    if kind in (Kind.RESERVATION, Kind.ATOMIC):
        return number // MEMORY_LINE * MEMORY_LINE
    return number if kind == Kind.EVENT or number in (1, 2) else None


def last_before(thing: Thing, place: int) -> Optional[int]:
    """The last step before a place that does something to a thing; None where none does."""
    return next((step for step in range(place - 1, -1, -1) if thing.does(step)), None)


def steps_that_do(thing: Thing, start: int, end: int) -> Iterator[int]:
    """The places from `start` and before `end` of the steps that do something to it."""
    return (place for place in range(start, end) if thing.does(place))
