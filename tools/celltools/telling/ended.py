"""How the SPUs of a run ended, a line each. It begins as ./hunt prints it: the instruction that ended the SPU with its place, and in parentheses the SPU with
the registers that a halt compared, or with its status. The reason follows.
"""
import contextlib
import tempfile
from typing import Iterable, Iterator, List, NamedTuple, Optional, Sequence, Tuple

from celltools.run.effects import Trace
from celltools.run.machine_state import Spe, State, spe_of
from celltools.run.runs import Path
from celltools.run.stepping import Run
from celltools.source.sites import Sites
from celltools.telling.executed import Executed
from celltools.telling.faults import (
    ELEMENT_SIZES, LOW_HALF, NAMES_OF_COMMANDS, WHOLE, Asked, Broken, Owner, broken_by_channel, broken_by_command, broken_by_element,
)  # fmt: skip
from celltools.telling.flows import fields_of
from celltools.telling.halts import compared_text, condition_text, registers_of
from celltools.telling.stops import RAN_INTO_ZEROS, is_reported, ran_into_zeros, stop_address, stop_word
from celltools.telling.waiting import Standing
from celltools.telling.words import name_of, with_article

FAULTS = ("dmafault", "badchannel", "badword")  # how the status of an SPU with a fault begins
HALTED = "halted"


def has_fault(spe: Spe) -> bool:
    return spe.status.startswith(FAULTS)


def has_failed(spe: Spe) -> bool:
    """Whether an SPU halted or has a fault."""
    return spe.status == HALTED or has_fault(spe)


class Ended(NamedTuple):
    """How an SPU ended that failed, or whose stop is reported."""
    spe: int
    has_failed: bool
    address: int  # of the instruction that ended it
    line: str
    compared: Sequence[int] = ()  # the registers that its halt compared
    ran_into_zeros: bool = False


class Endings:
    """The ends of the SPUs of one run. The steps ahead count as well: after its end an SPU makes none."""

    def __init__(self, run: Run, standing: Standing) -> None:
        self.run, self.standing = run, standing
        self.executed = Executed(run.trace, standing.sites, run.bytes_of)

    # ---- the steps

    def last_step(self, spe: Spe) -> int:
        """The last step of an SPU or of its MFC, which makes none after a DMA fault."""
        return next(place for place in range(len(self.run.heads) - 1, -1, -1) if self.run.heads[place].split()[1:2] == [str(spe.number)])

    def last_instruction(self, spe: Spe) -> int:
        return next(place for place in range(len(self.run.heads) - 1, -1, -1) if self.run.heads[place] == f"x {spe.number}")

    def is_element(self, spe: Spe) -> bool:
        """Whether a fault is that of a list element: the last step fetched it."""
        return spe.status.startswith("dmafault") and self.run.heads[self.last_step(spe)].startswith("e ")

    def instruction(self, spe: Spe) -> int:
        """The step of the instruction that ended an SPU: for a faulty list element, the one that issued its command."""
        if self.is_element(spe):
            trace = self.run.trace
            return trace.issues[trace.command_of(trace.steps[self.last_step(spe)]).key]
        return self.last_instruction(spe)

    def address(self, spe: Spe) -> int:
        return self.run.trace.steps[self.instruction(spe)].fetched.at

    # ---- the lines

    def ended(self, spe: Spe, state: State) -> Optional[Ended]:
        """How an SPU ended; None if it runs, or its stop isn't reported."""
        if has_failed(spe):
            compared = registers_of(self.executed.word(self.last_instruction(spe))) if spe.status == HALTED else []
            return Ended(spe.number, True, self.address(spe), self.line(spe, state), compared)
        sites = self.standing.sites
        if not is_reported(spe, sites):
            return None
        return Ended(spe.number, False, stop_address(spe), self.stop_line(spe), ran_into_zeros=ran_into_zeros(spe, sites))

    def line(self, spe: Spe, state: State) -> str:
        """The line of an SPU that doesn't run any more."""
        if has_fault(spe):
            place = self.instruction(spe)
            return f"{self.instruction_line(spe, self.address(spe), self.executed.word(place), spe.status)}: {self.reason(spe, state)}"
        return self.halt_line(spe) if spe.status == HALTED else self.stop_line(spe)

    def halt_line(self, spe: Spe) -> str:
        """The registers still have the values that were compared."""
        word = self.executed.word(self.last_instruction(spe))
        shown = self.instruction_line(spe, self.address(spe), word, compared_text(word, spe.register))
        return f"{shown}: halted, since {condition_text(word, spe.register)}"

    def stop_line(self, spe: Spe) -> str:
        sites = self.standing.sites
        shown = self.instruction_line(spe, stop_address(spe), stop_word(spe, sites), spe.status)
        return f"{shown}: {RAN_INTO_ZEROS}" if ran_into_zeros(spe, sites) else shown

    def instruction_line(self, spe: Spe, at: int, word: int, status: str) -> str:
        return self.standing.instruction_line(spe.number, at, word, f"SPU {spe.number}: {status}")

    # ---- the reasons of faults

    def reason(self, spe: Spe, state: State) -> str:
        """The rule that a fault breaks."""
        if spe.status.startswith("badword"):
            return f"0x{spe.word or 0:08x} is not an instruction"
        if spe.status.startswith("badchannel"):
            return broken_by_channel(spe.word or 0)
        return self.of_element(spe) if self.is_element(spe) else self.of_command(spe, state)

    def remark(self, spe: Spe, state: State) -> Optional[str]:
        """What follows the place of an SPU: the reason of a fault if its instruction is at the PC, or else the line of its end."""
        if has_fault(spe) and not self.is_element(spe):
            return self.reason(spe, state)
        found = self.ended(spe, state)
        return found.line if found else None

    def owner(self, spe: Spe) -> Owner:
        return Owner(self.run.memory, spe.number, self.standing.sites.names)

    def of_command(self, spe: Spe, state: State) -> str:
        """Why the command that an SPU was to issue is refused."""
        opcode = int(spe.register((spe.word or 0) & 0x7F)[:8], 16)
        params = fields_of(next(line for number, line in state.flows if number == spe.number and line.startswith("flow ")))[1]["params"]
        lsa, high, low, size, tag = map(int, params)
        name = NAMES_OF_COMMANDS.get(opcode & LOW_HALF)
        return refusal(spe, "the command" if name is None else with_article(name), broken_by_command(opcode, Asked(lsa, high, low, size, tag), self.owner(spe)))

    def of_element(self, spe: Spe) -> str:
        """Why a list element is refused: its words as they were when it was fetched."""
        trace, last = self.run.trace, self.last_step(spe)
        step, found = trace.steps[last], trace.element_of(last)
        command, number = trace.command_of(step), found[2] if found else 0
        words = self.run.bytes_of(step.reads, last) if step.reads else b""
        size, ea = int.from_bytes(words[:4], "big") % ELEMENT_SIZES, int.from_bytes(words[4:], "big")
        what = f"list element {number} of command {command.number} ({name_of(command)}, issued in step {trace.issues[command.key]})"
        return refusal(spe, what, broken_by_element(place_after(trace, command.ls, last), ea, size, self.owner(spe)))


def place_after(trace: Trace, lsa: int, last: int) -> int:
    """The place in the store of the element that is read in a step, after those of its list that were read before."""
    key, place = trace.command_of(trace.steps[last]).key, lsa - lsa % WHOLE
    for element in filter(None, (trace.steps[at].element_read() for at in trace.elements[key] if at < last)):
        low = element.ea % WHOLE if element.size < WHOLE else 0
        place = -(-(place + low + element.size) // WHOLE) * WHOLE if element.size else place
    return place


def refusal(spe: Spe, what: str, broken: Broken) -> str:
    """The sentence of a refusal. The kind of the broken rule has to be the one in the status."""
    kind = spe.status.split()[-1]
    words = broken[1] if broken and broken[0] == kind else f"it breaks rule `{kind}` of docs/reference/machine.md"
    return f"{what} is refused: {words}"


# ---- of a record

@contextlib.contextmanager
def followed(machine: Path, record: Path, steps: Optional[int] = None) -> Iterator[Tuple[Endings, State]]:
    """The ends of a run's SPUs after so many steps of a record, or all, and its state then. Refused if the run can't be made."""
    with tempfile.TemporaryDirectory(prefix="cell-ended-") as folder:
        run, standing = Run(machine, folder), Standing(Sites(machine, str(machine)))
        run.follow(record)
        run.place = run.ahead if steps is None else steps
        yield Endings(run, standing), run.state()


def ended_of(machine: Path, record: Path, states: Iterable[str], steps: Optional[int] = None) -> List[Ended]:
    """How the SPUs ended that failed, and those whose stops are reported, after so many steps of a record, or all. `states` has the lines of the states then: the
    run is made again only if there is something to report."""
    sites = Sites(machine, str(machine))
    if not any(has_failed(spe) or is_reported(spe, sites) for spe in (spe_of(line) for line in states if line.startswith("spe "))):
        return []
    return all_ended(machine, record, steps)


def ended_lines(machine: Path, record: Path, states: Iterable[str]) -> List[str]:
    return [ended.line for ended in ended_of(machine, record, states)]


def all_ended(machine: Path, record: Path, steps: Optional[int] = None) -> List[Ended]:
    """The same, without a look at the states first."""
    with followed(machine, record, steps) as (endings, state):
        endings.standing.learn(state)
        return [ended for ended in (endings.ended(spe, state) for spe in state.spes) if ended]


def failures_of(machine: Path, record: Path) -> List[Ended]:
    """How the SPUs ended that halted or have a fault at the end of a record."""
    return [ended for ended in all_ended(machine, record) if ended.has_failed]
