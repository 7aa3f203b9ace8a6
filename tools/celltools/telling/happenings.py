"""What the steps of a run do beside bytes: mailboxes, signal registers, events, stalls and reservations, by the effects of the steps alone.

docs/reference/machine.md says when an event is raised and when a list stalls; tests/debugger holds what is found here against the states.
"""
import collections
import dataclasses
import enum
from typing import Callable, Dict, List, Optional, Set, Union

from celltools.run.effects import MEMORY_LINE, NO_COMMAND, Command, Step, Trace, mailbox
from celltools.source.channels import EVENT_ACK, events_in
from celltools.source.target_registers import ends_rightly
from celltools.telling.executed import Executed
from celltools.telling.flows import STATUSES
from celltools.telling.halts import halt_of
from celltools.telling.words import ATOMIC, BOXES, over_untaken, request_of, tags

PLACES = 16  # of a queue
ELEMENT_BYTES = 8
LOST, SIGNAL_1, SIGNAL_2, OUTBOUND, INTERRUPT, INBOUND, QUEUE, STALL, TAG = 0x400, 0x200, 0x100, 0x80, 0x40, 0x10, 0x8, 0x2, 0x1
SIGNALS = {1: SIGNAL_1, 2: SIGNAL_2}
DONE = {0: "succeeds", 1: "fails: its reservation was lost"}  # by the status of a PUTLLC
ROOM = {"out": OUTBOUND, "intr": INTERRUPT}
Key = Union[int, str, None]  # of what happens


class Kind(enum.Enum):
    """What may happen in a step, by the word that asks for it."""
    MAILBOX = "mailbox"
    SIGNAL = "signal"
    EVENT = "event"
    STALL = "stall"
    RESERVATION = "reservation"
    LOST = "lost"
    FAULT = "fault"
    TAG = "tag"
    ATOMIC = "atomic"
    HALT = "halt"
    STOP = "stop"


@dataclasses.dataclass(frozen=True)
class Happening:
    """What happened at a processor. `key` is what it is one of: a mailbox's name, a signal register's number, an event's bits, the bits of tags, the address
    of a line of main memory."""
    place: int
    kind: Kind
    spe: int
    key: Key
    words: str


def pieces_of(command: Command) -> int:
    """How many pieces a transfer has."""
    if command.kind not in ("put", "get"):
        return 1
    return (command.ea + command.size - 1) // MEMORY_LINE - command.ea // MEMORY_LINE + 1 if command.size else 0


@dataclasses.dataclass
class Outstanding:
    """A command that isn't complete."""
    command: Command
    left: int  # pieces, of a list those of the element in progress
    read: int = 0  # elements
    is_flagged: bool = False
    is_stalled: bool = False

    @property
    def is_list(self) -> bool:
        return self.command.kind in ("putl", "getl")

    def is_complete(self) -> bool:
        """Whether nothing is left of it, behind a step that finished a piece or an element."""
        return not self.left and not self.is_stalled and (not self.is_list or self.read == self.command.size // ELEMENT_BYTES)


class Flow:
    """What of one processor is looked back at."""

    def __init__(self) -> None:
        self.line: Optional[int] = None  # that is held
        self.counts: Dict[str, int] = collections.Counter()  # of the values in its mailboxes
        self.ready: Set[int] = set()  # its signal registers that hold a value
        self.delivered: Dict[int, List[int]] = {}  # what was delivered to each and not read, the latest first
        self.stalls = 0
        self.pending = 0
        self.outstanding: Dict[int, Outstanding] = {}
        self.asked = 0  # the groups of its last request for a tag status
        self.atomic: Optional[int] = None  # the line of its last atomic command


class Happenings:
    """All that happened in a trace, as far as it was looked at; a trace that grows is looked at further, and one that was cut anew."""

    def __init__(self, trace: Trace, executed: Executed) -> None:
        self.trace, self.executed = trace, executed
        self.begin()

    def begin(self) -> None:
        self.flows: Dict[int, Flow] = collections.defaultdict(Flow)
        self.found: Dict[int, List[Happening]] = {}
        self.seen, self.place, self.cuts = 0, 0, self.trace.cuts

    def of(self, place: int) -> List[Happening]:
        """What happened in a step."""
        if self.cuts != self.trace.cuts:
            self.begin()
        while self.seen <= place:
            self.look_at(self.seen)
            self.seen += 1
        return self.found.get(place, [])

    def tell(self, kind: Kind, spe: int, key: Key, words: str) -> None:
        self.found.setdefault(self.place, []).append(Happening(self.place, kind, spe, key, words))

    def raise_event(self, spe: int, bit: int) -> None:
        self.flows[spe].pending |= bit
        self.tell(Kind.EVENT, spe, bit, f"raises event {events_in(bit)} at SPU {spe}")

    # ---- one step

    def look_at(self, place: int) -> None:
        line = self.trace.lines[place]
        if line[0] == "x" and line.count("|") == 1:  # an instruction that only fetches
            return
        self.place = place
        step = self.trace.steps[place]
        if step.kind == "atomic":
            self.atomic(step)
        elif step.writes and step.writes.spe is None:
            self.store(step, own=None)
        if step.kind in ("piece", "element", "retirement"):
            self.of_command(step)
        for name, look in BY_FIELD.items():
            if name in step.told:
                look(self, step)

    # ---- reservations

    def atomic(self, step: Step) -> None:
        """An atomic command: of its own processor no event is raised."""
        kind, _, number = step.told["atomic"]
        spe, at = step.processor, int(number) * MEMORY_LINE
        flow = self.flows[spe]
        name = f"SPU {spe}'s reservation of line 0x"
        if step.writes and step.writes.spe is None:
            self.store(step, own=spe)
        if kind == "getllar":
            if flow.line not in (None, at):
                self.tell(Kind.RESERVATION, spe, flow.line, f"ends {name}{flow.line:x} (a GETLLAR of another line)")
            flow.line = at
            self.tell(Kind.RESERVATION, spe, at, f"begins {name}{at:x}")
        elif kind == "putllc":
            if flow.line is not None:
                self.tell(Kind.RESERVATION, spe, flow.line, f"ends {name}{flow.line:x} (its own PUTLLC)")
            flow.line = None
            if step.number("status") == 1:
                self.tell(Kind.LOST, spe, at, f"the PUTLLC of line 0x{at:x} by SPU {spe} fails: its reservation was lost")

    def store(self, step: Step, own: Optional[int]) -> None:
        """Bytes of main memory are written, which ends the reservations of their lines."""
        written = step.writes
        if written is None:
            return
        first, end = written.at // MEMORY_LINE * MEMORY_LINE, written.at + written.size
        is_conditional = own is not None and step.told["atomic"][0] == "putllc"
        for spe in sorted(spe for spe, flow in self.flows.items() if flow.line is not None and first <= flow.line < end):
            if spe == own and is_conditional:
                continue
            line, self.flows[spe].line = self.flows[spe].line, None
            self.tell(Kind.RESERVATION, spe, line, f"ends SPU {spe}'s reservation of line 0x{line:x} (a store)")
            if spe != own:
                self.raise_event(spe, LOST)

    # ---- commands

    def issue(self, step: Step) -> None:
        command = step.issued()
        if command:
            self.flows[command.spe].outstanding[command.number] = Outstanding(command, 0 if command.kind in ("putl", "getl") else pieces_of(command))

    def of_command(self, step: Step) -> None:
        spe, number = step.command_key() or NO_COMMAND
        one = self.flows[spe].outstanding[number]
        if step.kind == "retirement":
            self.complete(spe, [number])
            return
        if step.kind == "piece":
            one.left -= 1
        else:
            read = step.element_read()
            if read is None:
                return
            one.read, one.left, one.is_flagged = one.read + 1, read.parts, read.flagged
        if one.is_list and not one.left and one.is_flagged:
            self.stall(step, one)
        if one.is_complete():
            self.complete(spe, [number])

    def complete(self, spe: int, numbers: List[int]) -> None:
        """Commands are complete; a queue that was full isn't any more."""
        outstanding = self.flows[spe].outstanding
        was_full = len(outstanding) == PLACES
        for number in numbers:
            del outstanding[number]
        if was_full and numbers:
            self.raise_event(spe, QUEUE)

    # ---- stalls

    def stall(self, step: Step, one: Outstanding) -> None:
        flow, tag = self.flows[step.processor], one.command.tag
        one.is_stalled = True
        had, flow.stalls = flow.stalls, flow.stalls | 1 << tag
        self.tell(Kind.STALL, step.processor, 1 << tag, f"command {step.command} of SPU {step.processor} (tag {tag}) stalls after list element {one.read - 1}")
        if not had:
            self.raise_event(step.processor, STALL)

    def read_stalls(self, step: Step) -> None:
        groups = step.number("stalls") or 0
        self.flows[step.processor].stalls = 0
        self.tell(Kind.STALL, step.processor, groups, f"SPU {step.processor} reads and clears the list stall status 0x{groups:08x} ({tags(groups)})")

    def acknowledge_stall(self, step: Step) -> None:
        flow, tag = self.flows[step.processor], step.number("ack") or 0
        resumed = [number for number, one in flow.outstanding.items() if one.is_stalled and one.command.tag == tag]
        for number in resumed:
            flow.outstanding[number].is_stalled = False
        numbers = ", ".join(map(str, resumed))
        what = "no list with this tag is stalled" if not resumed else f"command {numbers} resumes" if len(resumed) == 1 else f"commands {numbers} resume"
        self.tell(Kind.STALL, step.processor, 1 << tag if tag < 32 else 0, f"SPU {step.processor} acknowledges the stall of tag {tag}: {what}")
        self.complete(step.processor, [number for number in resumed if flow.outstanding[number].is_complete()])

    # ---- mailboxes and signals

    def put(self, step: Step) -> None:
        spe, box = mailbox(step)
        self.tell(Kind.MAILBOX, spe, box, f"writes 0x{int(step.told['put'][2]):x} to {BOXES[box]} of SPU {spe}")
        counts = self.flows[spe].counts
        counts[box] += 1
        if box == "in" and counts[box] == 1:
            self.raise_event(spe, INBOUND)

    def take(self, step: Step) -> None:
        spe, box = mailbox(step)
        self.tell(Kind.MAILBOX, spe, box, f"reads 0x{int(step.told['take'][2]):x} from {BOXES[box]} of SPU {spe}")
        self.flows[spe].counts[box] -= 1
        if box in ROOM:
            self.raise_event(spe, ROOM[box])

    def signal(self, step: Step) -> None:
        spe, register = map(int, step.told["signal"])
        ready = self.flows[spe].ready
        if "deliver" not in step.told:
            ready.discard(register)
            self.flows[spe].delivered[register] = []
            self.tell(Kind.SIGNAL, spe, register, f"reads 0x{step.number('rdch', 1):x} from signal register {register} of SPU {spe}")
            return
        value, before = step.number("deliver") or 0, self.flows[spe].delivered.get(register, [])
        over = over_untaken(before, value, (spe, register) in self.executed.sites.or_modes)
        self.flows[spe].delivered[register] = [value, *before]
        self.tell(Kind.SIGNAL, spe, register, f"delivers 0x{value:x} to signal register {register} of SPU {spe}{over}")
        if register not in ready:
            ready.add(register)
            self.raise_event(spe, SIGNALS[register])

    # ---- events

    def write_channel(self, step: Step) -> None:
        channel, value = (step.number("wrch", k) or 0 for k in (0, 1))
        if "ended" in step.told:
            return
        if channel == EVENT_ACK:
            cleared = self.flows[step.processor].pending & value
            self.flows[step.processor].pending &= ~value
            pending = "which was pending" if cleared == value else f"of which {events_in(cleared)} was pending" if cleared else "which was not pending"
            self.tell(Kind.EVENT, step.processor, value, f"acknowledges {events_in(value)} at SPU {step.processor}, {pending}")

    # ---- tag groups

    def request(self, step: Step) -> None:
        how, groups = step.number("request") or 0, step.number("request", 1) or 0
        self.flows[step.processor].asked = groups
        self.tell(Kind.TAG, step.processor, groups, f"SPU {step.processor} requests a tag status: {request_of(how, groups)}")

    def fixed(self, step: Step) -> None:
        asked = self.flows[step.processor].asked
        self.tell(Kind.TAG, step.processor, asked, f"makes the tag status of SPU {step.processor} available ({tags(asked)})")
        self.raise_event(step.processor, TAG)

    def read_tags(self, step: Step) -> None:
        groups = step.number("tags") or 0
        self.tell(Kind.TAG, step.processor, groups, f"SPU {step.processor} reads the tag status 0x{groups:08x} ({tags(groups)})")

    # ---- atomic commands

    def atomic_of(self, step: Step) -> None:
        """An atomic command that is issued, or done."""
        kind, _, number = step.told["atomic"]
        line = int(number) * MEMORY_LINE
        name = f"{ATOMIC[kind]} of line 0x{line:x}"
        self.flows[step.processor].atomic = line
        if step.kind == "instruction":
            self.tell(Kind.ATOMIC, step.processor, line, f"SPU {step.processor} issues a {name}")
        else:
            self.tell(Kind.ATOMIC, step.processor, line, f"the {name} by SPU {step.processor} {DONE.get(step.number('status') or 0, 'completes')}")

    def read_atomic(self, step: Step) -> None:
        status = step.number("rdch", 1) or 0
        self.tell(Kind.ATOMIC, step.processor, self.flows[step.processor].atomic, f"SPU {step.processor} reads the atomic status {status} ({STATUSES.get(str(status), 'unknown')})")

    # ---- ends of SPUs

    def end(self, step: Step) -> None:
        """An SPU runs no more: by a fault, unless its instruction is a stop or a halt."""
        if step.kind == "element" or not ends_rightly(self.executed.word(self.place)):
            self.tell(Kind.FAULT, step.processor, None, f"a fault ends SPU {step.processor}")
        elif halt_of(self.executed.word(self.place)):
            self.tell(Kind.HALT, step.processor, None, f"a halt instruction ends SPU {step.processor}")
        else:
            self.tell(Kind.STOP, step.processor, None, f"a stop instruction ends SPU {step.processor}")


BY_FIELD: Dict[str, Callable[[Happenings, Step], None]] = {
    "issue": Happenings.issue, "stalls": Happenings.read_stalls, "ack": Happenings.acknowledge_stall, "put": Happenings.put, "take": Happenings.take,
    "signal": Happenings.signal, "wrch": Happenings.write_channel, "request": Happenings.request, "fixed": Happenings.fixed, "tags": Happenings.read_tags,
    "atomic": Happenings.atomic_of, "atomicread": Happenings.read_atomic, "ended": Happenings.end,
}
