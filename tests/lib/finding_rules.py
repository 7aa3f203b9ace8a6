"""What docs/guide/hunting.md says of livelocks, spent budgets, lost values, unwritten bytes and executed lines: told once more in plain Python, beside the proved
program.

It reads a run's steps with their effects, and the files of the machine as tests/lib/finding_machines.py wrote them. The bytes of main memory and of the local
stores are computed here, from the few instructions that these programs have. Nothing here is fast: every rule looks at every step.
"""
import re
from typing import Callable, Dict, Iterator, List, NamedTuple, Optional, Sequence, Set, Tuple

from celltools.run.effects import Span, Step, Trace
from lib.finding_machines import MEMORY_LINE, STORE_BYTES, Line, Machine, Placed

KEPT_INSTRUCTIONS = 1000  # the last ones of a processor, whose range is its loop
SHOWN_SPUS = 4
SHOWN_SPANS = 8
WORD = 4
NO_EFFECT = "nop"
LOST_SIGNAL, UNREAD_PUTLLC, UNREAD_TAGS, UNWRITTEN_BYTES = "lost-signal", "unread-putllc", "unread-tags", "unwritten-bytes"
LIVELOCK, BUDGET = "livelock", "budget"
FAILED = 1  # the atomic status of a PUTLLC that stored nothing
OTHER_LINES = "  no SPU is running, but a DMA command is not complete\n"

Quadword = Tuple[int, int, int, int]  # its words
Where = Tuple[int, int]  # a processor, and an address in its store


class Telling(NamedTuple):
    """A finding of a run: its key, whose first word is its kind, and the lines that a report prints of it."""
    key: str
    shown: str

    @property
    def kind(self) -> str:
        return self.key.partition(" ")[0]


class Ended(NamedTuple):
    """How a run ended, by the states that follow its record: the end word, of each processor that runs its PC, and the bytes of main memory."""
    word: str
    running: Dict[int, int]
    memory: bytes


class Run(NamedTuple):
    """A run: its steps with their effects, and its end."""
    trace: Trace
    ended: Ended


def ended_in(text: str) -> Ended:
    """The end of a run, from what `cell run` prints of it."""
    states = text.split("\nend ", 1)[1]
    running = {int(spe): int(pc, 0) for spe, pc in re.findall(r"^spe (\d+) running pc (\S+)", states, re.M)}
    shown = "".join(re.findall(r"^mem \S+ (\w+)$", states, re.M))
    return Ended(states.split("\n", 1)[0], running, bytes.fromhex(shown))


# ---- lines of sources

def line_at(lines: Sequence[Line], at: int) -> Optional[Line]:
    return next((line for line in lines if line.at <= at < line.at + line.size), None)


def covers(machine: Machine, placed: Placed, at: int) -> bool:
    if placed.source is None:
        return placed.at <= at < placed.at + len(placed.data)
    return line_at(machine.sources[placed.source], at) is not None


def placed_at(machine: Machine, where: Where) -> Optional[Placed]:
    """What placed the byte at an address last."""
    spe, at = where
    return next((placed for placed in reversed(machine.placed) if placed.spe == spe and covers(machine, placed, at)), None)


def source_line(machine: Machine, where: Where) -> Optional[Tuple[str, Line]]:
    """The source and the line that placed an instruction; None where bytes of the machine file did."""
    placed = placed_at(machine, where)
    if placed is None or placed.source is None:
        return None
    line = line_at(machine.sources[placed.source], where[1])
    return (placed.source, line) if line else None


def in_key(machine: Machine, where: Where) -> str:
    """An instruction in a key."""
    found = source_line(machine, where)
    return f" | {found[0]}:{found[1].number}" if found else f" | {where[0]} at 0x{where[1]:05x}"


def in_line(machine: Machine, where: Where) -> str:
    """An instruction at the front of a line."""
    found = source_line(machine, where)
    return f"{found[0]}:{found[1].number}: {found[1].statement}" if found else f"SPU {where[0]} at 0x{where[1]:05x}"


def in_note(machine: Machine, where: Where) -> str:
    """An instruction of a processor that is named beside it."""
    found = source_line(machine, where)
    return f"{found[0]}:{found[1].number}" if found else f"0x{where[1]:05x}"


# ---- executed lines

def executed_in(run: Run) -> Set[Where]:
    """The instructions that a run executed."""
    return {(step.processor, step.fetched.at) for step in run.trace.steps if step.kind == "instruction"}


def source_rows(machine: Machine, executed: Set[Where]) -> List[Dict[str, object]]:
    """The lines of the sources that have an instruction, each with 1 if an SPU that loads the source executed its address, as --json prints them."""
    rows: List[Dict[str, object]] = []
    for name, lines in machine.sources.items():
        loading = [placed.spe for placed in machine.placed if placed.source == name]
        rows.append({"source": name, "lines": [[line.number, int(any((spe, line.at) in executed for spe in loading))] for line in lines if line.instruction]})
    return rows


def spans_of(lines: Sequence[Tuple[int, int]]) -> Iterator[str]:
    """The spans of lines that weren't executed, of lines with their numbers and whether they were."""
    span: List[int] = []
    for number, executed in [*lines, (0, 1)]:
        if executed and span:
            yield str(span[0]) if len(span) == 1 else f"{span[0]}-{span[-1]}"
        span = [] if executed else [*span, number]


def never_executed(rows: Sequence[Dict[str, object]]) -> List[str]:
    """The lines of a report on what no run executed, from the rows of the sources."""
    found = []
    for row in rows:
        spans = list(spans_of(row["lines"]))  # type: ignore[arg-type]
        more = f" and {len(spans) - SHOWN_SPANS} more" if len(spans) > SHOWN_SPANS else ""
        if spans:
            found.append("never executed:" + "".join(f" {row['source']}:{span}" for span in spans[:SHOWN_SPANS]) + more)
    return found


# ---- bytes

def sign_extended(value: int, bits: int) -> int:
    return value - (1 << bits) if value >> bits - 1 & 1 else value


def number(word: str) -> int:
    return int(word.lstrip("$"), 0)


def lanes(change: Callable[[int], int], old: Quadword) -> Quadword:
    a, b, c, d = (change(word) & 0xffffffff for word in old)
    return a, b, c, d


class Bytes:
    """The bytes of main memory and of the local stores, and the registers, as the steps of a run leave them."""

    def __init__(self, machine: Machine) -> None:
        self.machine = machine
        self.memory = bytearray(machine.lines * MEMORY_LINE)
        self.stores = [bytearray(STORE_BYTES) for _ in range(machine.spes)]
        self.registers: List[Dict[int, Quadword]] = [{} for _ in range(machine.spes)]
        self.actions = 0
        self.instructions: Dict[Where, str] = {}  # by their places, as far as they were executed
        for at, data in machine.memory:
            self.memory[at:at + len(data)] = data
        for placed in machine.placed:
            code = [(placed.at, placed.data)] if placed.source is None else machine.code[placed.source]
            for at, data in code:
                self.stores[placed.spe][at:at + len(data)] = data

    def room(self, span: Span) -> bytearray:
        return self.memory if span.spe is None else self.stores[span.spe]

    def take(self, step: Step) -> bool:
        """Takes in a step, and answers whether it changes bytes of main memory."""
        data = self.written(step)
        span = step.writes
        if span is None or data is None:
            return False
        room = self.room(span)
        before = room[span.at:span.at + span.size]
        room[span.at:span.at + span.size] = data
        return span.spe is None and before != data

    def written(self, step: Step) -> Optional[bytes]:
        """The bytes that a step writes."""
        if step.kind == "host":
            words = self.machine.host[self.actions].split()
            self.actions += 1
            return bytes.fromhex(words[3]) if words[1] == "store" else None
        if step.kind == "instruction":
            return self.execute(step)
        return bytes(self.room(step.reads)[step.reads.at:step.reads.at + step.reads.size]) if step.reads and step.writes else None

    def instruction_at(self, where: Where) -> str:
        """The instruction at a place. The words of the machine file set no register and store nothing."""
        if where not in self.instructions:
            found = source_line(self.machine, where)
            self.instructions[where] = found[1].instruction or NO_EFFECT if found else NO_EFFECT
        return self.instructions[where]

    def execute(self, step: Step) -> Optional[bytes]:
        """Executes an instruction on the registers, and answers the bytes that it stores."""
        mnemonic, *rest = self.instruction_at((step.processor, step.fetched.at)).split(None, 1)
        operands = "".join(rest).split(",")
        registers = self.registers[step.processor]
        if mnemonic == "stqa":
            return b"".join(word.to_bytes(WORD, "big") for word in registers.get(number(operands[0]), (0, 0, 0, 0)))
        value = self.value_of(step, mnemonic, operands)
        if value is not None:
            registers[number(operands[0])] = value
        return None

    def value_of(self, step: Step, mnemonic: str, operands: Sequence[str]) -> Optional[Quadword]:
        """What an instruction puts into its register; None where it has none."""
        registers = self.registers[step.processor]
        if mnemonic in ("rdch", "rchcnt"):
            return (int(step.told[mnemonic][1]), 0, 0, 0) if mnemonic in step.told else None
        if mnemonic == "lqa" and step.reads:
            quadword = bytes(self.room(step.reads)[step.reads.at:step.reads.at + 16])
            a, b, c, d = (int.from_bytes(quadword[at:at + WORD], "big") for at in range(0, 16, WORD))
            return a, b, c, d
        if mnemonic in ("il", "ilhu", "iohl"):
            given, old = number(operands[1]), registers.get(number(operands[0]), (0, 0, 0, 0))
            changes: Dict[str, Callable[[int], int]] = {"il": lambda _: sign_extended(given, 16), "ilhu": lambda _: given << 16, "iohl": lambda word: word | given}
            return lanes(changes[mnemonic], old)
        if mnemonic in ("ai", "ceqi"):
            given, source = number(operands[2]), registers.get(number(operands[1]), (0, 0, 0, 0))
            return lanes((lambda word: word + given) if mnemonic == "ai" else (lambda word: -1 if word == given & 0xffffffff else 0), source)
        return None


# ---- changes that other actors can see

def is_visible(step: Step) -> bool:
    """Whether a step is the host's, or changes a mailbox or a signal register, or ends an SPU."""
    return step.kind == "host" or any(name in step.told for name in ("put", "take", "signal", "ended"))


def last_change(machine: Machine, run: Run) -> Tuple[int, bytes]:
    """How many steps a run has up to its last change and with it, 0 if it has none; and main memory at the end."""
    bytes_now, last = Bytes(machine), 0
    for place, step in enumerate(run.trace.steps):
        changes_memory = bytes_now.take(step)
        if changes_memory or is_visible(step):
            last = place + 1
    return last, bytes(bytes_now.memory)


# ---- where steps come from

def issuer_of(run: Run, place: int) -> int:
    """The place of the instruction from which a step comes, which isn't the host's."""
    step = run.trace.steps[place]
    key = step.command_key()
    if key is not None:
        return run.trace.issues[key]
    if step.kind == "atomic":
        return max(at for at in run.trace.with_field("atomic", 0, place) if run.trace.steps[at].is_instruction_of(step.spe))
    return place


def where_of(run: Run, place: int) -> Where:
    step = run.trace.steps[issuer_of(run, place)]
    return step.processor, step.fetched.at


def actions_before(run: Run, place: int) -> int:
    return sum(step.kind == "host" for step in run.trace.steps[:place])


def origin(machine: Machine, run: Run, place: int) -> str:
    """Where a step comes from, in a key."""
    if run.trace.steps[place].kind == "host":
        return f" | h {actions_before(run, place)}"
    return in_key(machine, where_of(run, place))


ACTORS = {"instruction": "SPU", "piece": "DMA transfer of SPU", "element": "list element read by the MFC of SPU", "retirement": "DMA command of SPU",
          "atomic": "atomic command of SPU"}


def step_line(machine: Machine, run: Run, place: int, does: str) -> str:
    """The line of a step, and what it does."""
    step = run.trace.steps[place]
    if step.kind == "host":
        return f"  host action {actions_before(run, place)}{does}\n"
    return f"  {in_line(machine, where_of(run, place))}  ({ACTORS[step.kind]} {step.processor}{does})\n"


# ---- livelocks and spent budgets

def is_livelock(budget: int, last: int) -> bool:
    """Whether none of the steps that a fair schedule chose, those of the last quarter of the budget, is a change."""
    return last == 0 or 4 * (last - 1) < 3 * budget


def loop_of(run: Run, spe: int, last: int) -> Optional[Tuple[int, int]]:
    """The least and the greatest address of a processor's last instructions after the last change; None if it executed none."""
    addresses = [step.fetched.at for step in run.trace.steps[last:] if step.is_instruction_of(spe)][-KEPT_INSTRUCTIONS:]
    return (min(addresses), max(addresses)) if addresses else None


def polled_by(run: Run, spe: int, last: int) -> Optional[Span]:
    """The bytes of main memory that the MFC of a processor read last after the last change."""
    read = [step.reads for step in run.trace.steps[last:] if step.kind in ("piece", "atomic") and step.spe == spe and step.reads and step.reads.spe is None]
    return read[-1] if read else None


def writer_of(run: Run, span: Span) -> Optional[int]:
    """The place of the last step that wrote a byte of a span of main memory."""
    writes = [(place, step.writes) for place, step in enumerate(run.trace.steps) if step.writes and step.writes.spe is None]
    return max((place for place, written in writes if written.at < span.at + span.size and span.at < written.at + written.size), default=None)


def polls(machine: Machine, run: Run, span: Optional[Span]) -> str:
    """What a processor polls, in its line."""
    if span is None:
        return ""
    place = writer_of(run, span)
    if place is None:
        written = "never written"
    elif run.trace.steps[place].kind == "host":
        written = "last written by the host"
    else:
        where = where_of(run, place)
        written = f"last written at {in_note(machine, where)} by SPU {where[0]}"
    return f"; polls {span.size} byte{'s' * (span.size != 1)} at 0x{span.at:08x}, {written}"


def looping_line(machine: Machine, run: Run, spe: int, last: int) -> str:
    """The line of a processor in a livelock."""
    loop = loop_of(run, spe, last)
    first = loop[0] if loop else run.ended.running[spe]
    does = f"loops up to {in_note(machine, (spe, loop[1]))}" if loop else "waits"
    return f"  {in_line(machine, (spe, first))}  (SPU {spe} {does}{polls(machine, run, polled_by(run, spe, last))})\n"


def shown_lines(lines: Sequence[str]) -> str:
    """The lines of processors, of which a report has four at most."""
    hidden = len(lines) - SHOWN_SPUS
    more = f"  and {hidden} more SPU{'s' * (hidden != 1)}\n" if hidden > 0 else ""
    return "".join(lines[:SHOWN_SPUS]) + more if lines else OTHER_LINES


def spent_in(machine: Machine, run: Run, last: int) -> Optional[Telling]:
    """The livelock of a run that spent its budget, or that it still progressed; None for a run that ended otherwise."""
    if run.ended.word != "Budget":
        return None
    running = sorted(run.ended.running)
    if not is_livelock(machine.budget, last):
        lines = [f"  {in_line(machine, (spe, run.ended.running[spe]))}  (SPU {spe} runs)\n" for spe in running]
        return Telling(BUDGET, shown_lines(lines) + f"  still progressing: the last change is step {last - 1} of {machine.budget}\n")
    loops = {spe: loop_of(run, spe, last) for spe in running}
    firsts = [(spe, loops[spe][0] if loops[spe] else run.ended.running[spe]) for spe in running]  # type: ignore[index]
    since = f"after step {last - 1} of {machine.budget}" if last else f"in {machine.budget} steps"
    lines = [looping_line(machine, run, spe, last) for spe in running]
    return Telling(LIVELOCK + "".join(in_key(machine, where) for where in firsts),
                   shown_lines(lines) + f"  no progress {since}: no mailbox, signal, status or byte of memory changed\n")


# ---- lost values

class Loss(NamedTuple):
    """A lost value: its kind, what the step did that set it, the place of that step, and of the one that replaced it; None if the run ended first."""
    kind: str
    does: str
    lost: int
    by: Optional[int]


class Values:
    """Values that wait to be read, by what they are of: the places of the steps that set them, None if the loss of the present one counts for nothing."""

    def __init__(self, kind: str) -> None:
        self.kind = kind
        self.waiting: Dict[object, Tuple[Optional[int], str]] = {}
        self.losses: List[Loss] = []

    def set(self, what: object, place: int, counts: bool, does: str) -> None:
        lost, said = self.waiting.get(what, (None, ""))
        if lost is not None:
            self.losses.append(Loss(self.kind, said, lost, place))
        self.waiting[what] = place if counts else None, does

    def read(self, what: object) -> None:
        self.waiting.pop(what, None)

    def end(self) -> None:
        """The values that nobody has read at the end are lost."""
        self.losses += [Loss(self.kind, does, lost, None) for lost, does in self.waiting.values() if lost is not None]


def lost_signals(machine: Machine, run: Run) -> List[Loss]:
    """Values of signal registers in overwrite mode that are replaced before an instruction takes them."""
    values = Values(LOST_SIGNAL)
    for place in run.trace.with_field("signal"):
        step = run.trace.steps[place]
        spe, register = map(int, step.told["signal"][:2])
        if step.kind == "instruction":
            values.read((spe, register))
        else:
            does = f" sets signal register {register} of SPU {spe} to a value that is never read"
            values.set((spe, register), place, (spe, register) not in machine.or_modes, does)
    return values.losses


def unread_putllcs(run: Run) -> List[Loss]:
    """Atomic statuses of PUTLLCs that stored nothing, which the next atomic command replaces, or which are unread at the end."""
    values = Values(UNREAD_PUTLLC)
    for place, step in enumerate(run.trace.steps):
        if step.kind == "atomic":
            is_failed = step.told["atomic"][0] == "putllc" and step.number("status") == FAILED
            values.set(step.spe, place, is_failed, " stores nothing, and its status is never read")
        elif "atomicread" in step.told:
            values.read(step.spe)
    values.end()
    return values.losses


def unread_tags(run: Run) -> List[Loss]:
    """Tag statuses that are fixed, and not read before the next one is fixed."""
    values = Values(UNREAD_TAGS)
    for place, step in enumerate(run.trace.steps):
        if "tags" in step.told:
            values.read(step.spe)
        if "fixed" in step.told:
            values.set(step.spe, place, True, " sets a tag status that is never read")
    return values.losses


# ---- bytes that nothing wrote

def known_at_start(machine: Machine) -> List[bytearray]:
    """For each byte of the local stores 1 if the machine file placed it, else 0."""
    known = [bytearray(STORE_BYTES) for _ in range(machine.spes)]
    for placed in machine.placed:
        spans = [(placed.at, len(placed.data))] if placed.source is None else machine.images[placed.source]
        for at, size in spans:
            known[placed.spe][at:at + size] = b"\1" * size
    return known


def unwritten_reads(machine: Machine, run: Run) -> List[Tuple[int, Where]]:
    """The places of the steps that read bytes that aren't known, and the first of these bytes. A byte is known once it was placed or a step touched it.
    A load reads a whole quadword, so it counts only if no byte of that is known."""
    known, found = known_at_start(machine), []
    for place, step in enumerate(run.trace.steps):
        if step.reads and step.reads.spe is not None:
            read = known[step.reads.spe][step.reads.at:step.reads.at + step.reads.size]
            if 0 in read and (step.kind != "instruction" or 1 not in read):
                found.append((place, (step.reads.spe, step.reads.at + read.index(0))))
        for span in (step.reads, step.writes):
            if span and span.spe is not None:
                known[span.spe][span.at:span.at + span.size] = b"\1" * span.size
    return found


def unwritten_warning(machine: Machine, run: Run, place: int, first: Where) -> Telling:
    line = f"  it reads bytes that nothing wrote, the first at 0x{first[1]:05x} in the local store of SPU {first[0]}\n"
    return Telling(UNWRITTEN_BYTES + origin(machine, run, place), step_line(machine, run, place, "") + line)


def warnings_in(machine: Machine, run: Run) -> List[Telling]:
    """The warnings of a run: of losses of one kind between the same two lines, one, and of reads of unwritten bytes in one line, one."""
    found: Dict[str, Telling] = {}
    losses = lost_signals(machine, run) + unread_putllcs(run) + unread_tags(run)
    for loss in sorted(losses, key=lambda loss: len(run.trace.steps) if loss.by is None else loss.by):
        key = loss.kind + origin(machine, run, loss.lost) + (" | end" if loss.by is None else origin(machine, run, loss.by))
        by = "  the run ends before it is read\n" if loss.by is None else step_line(machine, run, loss.by, " replaces it")
        found.setdefault(key, Telling(key, step_line(machine, run, loss.lost, loss.does) + by))
    for place, first in unwritten_reads(machine, run):
        warning = unwritten_warning(machine, run, place, first)
        found.setdefault(warning.key, warning)
    return list(found.values())
