"""Says in words how a run stands: its processors, flow controllers and host, and what its steps did."""
from typing import Iterator, List, Optional, Sequence, Tuple

from celltools.run.effects import Span, Step
from celltools.run.machine_state import Spe, State, actor_of
from celltools.run.stepping import Run
from celltools.source.channels import SIGNAL_REGISTERS
from celltools.source.names import Names
from celltools.source.sites import Sites
from celltools.telling.ended import Endings
from celltools.telling.flows import Told, command_line, event_lines, fields_of, flow_lines, signal_line
from celltools.telling.waiting import Standing
from celltools.telling.words import ATOMIC, Teller, with_article

ENDS = {
    "AllStopped": "the run has ended (AllStopped): no SPU runs, and no command is outstanding",
    "Stuck": "deadlock (Stuck): no further step is possible",
    "Budget": "the budget is spent (Budget): the machine file allows no further step",
}
ROW = 16  # bytes of a line
LAST_PRINTABLE = 0x7E


def quad(digits: str) -> str:
    """A register's digits, word by word."""
    return " ".join(digits[k:k + 8] for k in range(0, 32, 8))


def grouped(data: bytes, width: int) -> str:
    """Bytes in hexadecimal, so many together."""
    return " ".join(data[k:k + width].hex() for k in range(0, len(data), width))


def dump(span: Span, data: bytes, names: Names, width: Optional[int] = None) -> Iterator[str]:
    """The bytes of a span in rows, so many together, or four, each with its address, and where that has a name, with it."""
    for start in range(0, len(data), ROW):
        row = data[start:start + ROW]
        words = grouped(row, width or 4)
        text = "".join(chr(byte) if ord(" ") <= byte <= LAST_PRINTABLE else "." for byte in row)
        name = names.of(span.spe, span.at + start)
        yield f"0x{span.at + start:05x} {words:35} " + (f"{text:{ROW}} {name}" if name else text)


class Words(Standing):
    """Says how one run stands."""

    def __init__(self, run: Run, sites: Sites) -> None:
        super().__init__(sites)
        self.run, self.endings = run, Endings(run, self)

    def steps_made(self) -> Sequence[str]:
        return self.run.trace.lines[:self.run.place]

    def remark(self, spe: Spe, state: State) -> Optional[str]:
        """What an SPU waits for, or how it ended; None if there is nothing to report."""
        return self.endings.remark(spe, state) or self.waits(spe, state)

    # ---- who may step

    def actors(self, state: State) -> Iterator[str]:
        """Who may step now, and how."""
        if not state.may:
            yield ENDS[state.end]
        self.learn(state)
        for step in state.may:
            yield f"{self.actor_name(step):4} {self.possible(step, state)}"

    def actor_name(self, step: str) -> str:
        kind, number = actor_of(step)
        return kind if number is None else f"{kind}{number}"

    def possible(self, step: str, state: State) -> str:
        """A step that may be made."""
        letter, *numbers = step.split()
        if letter == "x":
            return self.stands(state.spes[int(numbers[0])])
        if letter == "h":
            return f"the host: {self.sites.action(state.host[0])}"
        return f"{step}: {self.of_controller(letter, list(map(int, numbers)), state)}"

    def of_controller(self, letter: str, numbers: Sequence[int], state: State) -> str:
        """A step of a flow controller."""
        spe = numbers[0]
        if letter == "a":
            kind, _, line = self.flow(spe, state)["atomic"]
            return f"{with_article(ATOMIC[kind])} of {self.sites.names.line(int(line))} by SPU {spe}"
        command = self.teller().command_of(self.run.trace.commands[spe, numbers[1]])
        if letter == "p":
            element = f" of list element {numbers[2]}" if (spe, numbers[1]) in self.run.trace.elements else ""
            return f"piece {numbers[3]}{element} of {command}"
        return f"{'the fetch of the next list element' if letter == 'e' else 'the completion'} of {command}"

    # ---- steps that were made

    def teller(self) -> Teller:
        return Teller(self.run.trace, self.sites)

    def step(self, place: int) -> Iterator[str]:
        """What a step did."""
        teller = self.teller()
        step = self.run.trace.steps[place]
        site = f", at {self.site(teller, place, step)}" if step.kind in ("instruction", "host") else ""
        yield f"step {place}, {step.line}: {teller.what(place)}{site}"
        issue = teller.issue(place)
        if issue is not None:
            yield f"    issued in step {issue}, at {teller.site(issue)}"

    def calls(self, place: int) -> List[str]:
        """From where the routine of a step was called, or that of its command's issue."""
        return [f"    {line}" for line in self.teller().origin(place)[1:]]

    def site(self, teller: Teller, place: int, step: Step) -> str:
        """Where an instruction or an action of the host stands; the instruction as it was then, where that is known."""
        if step.kind == "instruction" and step.spe is not None and place in self.run.states:
            return self.instruction(self.run.state(place).spes[step.spe])
        return teller.site(place)

    def changed(self, before: State, after: State) -> Iterator[str]:
        """The registers that differ between two states."""
        for old, new in zip(before.spes, after.spes):
            for number in sorted(old.registers.keys() | new.registers.keys()):
                if old.register(number) != new.register(number):
                    whose = f" of SPU {old.number}" if len(before.spes) > 1 else ""
                    yield f"    ${number}{whose} = {quad(new.register(number))}"
        for took in after.took[len(before.took):]:
            yield f"    the host {took}"

    # ---- flow controllers

    def queue(self, spe: int, state: State) -> List[str]:
        """The outstanding commands of a processor."""
        lines = [command_line(*self.command_fields(line), self.sites.names) for number, line in state.flows if number == spe and line.startswith("command ")]
        return lines or [f"the MFC command queue of SPU {spe} is empty"]

    def command_fields(self, line: str) -> Tuple[List[str], Told]:
        (_, *words), told = fields_of(line)
        return words, told

    def tags(self, spe: int, state: State) -> Iterator[str]:
        """A processor's flow controller beside its queue."""
        return flow_lines(self.flow(spe, state), spe, self.sites.names)

    # ---- signals and events

    def signals(self, spe: int, state: State) -> List[str]:
        """The signal registers and the events of a processor."""
        told = self.flow(spe, state)
        return [*(signal_line(told, register, (spe, register) in self.sites.or_modes) for register in SIGNAL_REGISTERS.values()), *event_lines(told)]
