"""Says in words how the processors and the host of a machine stand, and what they wait for; of a record, too."""
import functools
import os
import re
from typing import Callable, Iterator, List, Optional, Sequence

from celltools.run.effects import has_group
from celltools.run.machine_state import Spe, State
from celltools.run.runs import Path, ask_tracer
from celltools.run.snapshots import steps_of
from celltools.source.channels import ATOMIC, COMMAND, EVENT_STATUS, channel_name, channel_of, events_in, may_wait
from celltools.source.disassembly import Disassembler
from celltools.source.sites import Sites
from celltools.telling.flows import Told, events_of, fields_of
from celltools.telling.words import counted, request_of

REQUEST = "wrch $ch23 (MFC_WrTagUpdate)"  # which requests a tag status
FETCHED = re.compile(r" \| fetch \d+ (\d+) ")

WAITS = {
    3: "signal register 1 is empty",
    4: "signal register 2 is empty",
    27: "no atomic status is available",
    28: "the outbound mailbox is full",
    29: "the inbound mailbox is empty",
    30: "the outbound interrupt mailbox is full",
}


class TagRequests:
    """The step that last asked for a tag status of a processor, and the one that took it, each if there is one."""

    def __init__(self, steps: Sequence[str], spe: int) -> None:
        self.asked: Optional[int] = None
        self.taken: Optional[int] = None
        own = f"x {spe} "
        for place in range(len(steps) - 1, -1, -1):
            line = steps[place]
            if line.startswith(own) and " | request " in line:
                self.asked = place
                return
            if self.taken is None and line.startswith(own) and " | tags " in line:
                self.taken = place


def is_at_instruction(spe: Spe) -> bool:
    """Whether the instruction at the PC is one that is to be executed, or that failed."""
    return spe.word is not None and (spe.runs or spe.status.startswith(("badword", "badchannel", "dmafault")))


class Standing:
    """Says how a machine stands, and where in its sources."""

    def __init__(self, sites: Sites, known_steps: Callable[[], Sequence[str]] = lambda: ()) -> None:
        self.sites, self.words, self.known_steps = sites, Disassembler(), known_steps

    def instruction(self, spe: Spe) -> str:
        """What a processor is about to execute, with its line."""
        return self.instruction_at(spe.number, spe.pc, spe.word or 0)

    def instruction_at(self, number: int, at: int, word: int) -> str:
        """The instruction that a word is at an address of a processor's store, with its line."""
        site = self.sites.of_processor[number].get(at)
        if site and site.is_source and site.word == word:
            return str(site)
        text = self.words.text(at, word)
        if not site:
            return f"no source line: {text}"
        return f"{site.place}: {text}" + ("" if site.word == word else f" (overwritten; was {site.text})")

    def learn(self, state: State) -> None:
        """Asks at once for the texts of all instructions that no source has as they stand."""
        at = [(spe, self.sites.of_processor[spe.number].get(spe.pc)) for spe in state.spes if is_at_instruction(spe)]
        self.words.learn([(spe.pc, spe.word or 0) for spe, site in at if not (site and site.is_source and site.word == spe.word)])

    def stands(self, spe: Spe) -> str:
        """Where a processor is."""
        place = f"SPU {spe.number} {spe.status} at 0x{spe.pc:05x}"
        return f"{place}, {self.instruction(spe)}" if is_at_instruction(spe) else place

    def instruction_line(self, number: int, at: int, word: int, note: str) -> str:
        """An instruction of an SPU as ./hunt prints it: with its place, and a note in parentheses. If no line placed it, its SPU and its address are the place."""
        has_line = at in self.sites.of_processor[number]
        text = self.instruction_at(number, at, word) if has_line else f"SPU {number} at 0x{at:05x}: {self.words.text(at, word)}"
        return f"{text}  ({note})"

    def running_line(self, spe: Spe, state: State) -> str:
        """The line of an SPU that still runs: its next instruction, and what it waits for, if it does."""
        waited = self.waited_for(spe, state)
        line = self.instruction_line(spe.number, spe.pc, spe.word or 0, f"SPU {spe.number} {'waits' if waited else 'runs'}")
        return f"{line}: {waited}" if waited else line

    def waits(self, spe: Spe, state: State) -> Optional[str]:
        """The same as a sentence."""
        waited = self.waited_for(spe, state)
        return f"waits on {waited}" if waited else None

    def waited_for(self, spe: Spe, state: State) -> Optional[str]:
        """The channel that an SPU waits on, if it does, and why."""
        if not spe.runs or f"x {spe.number}" in state.may or state.end == "Budget" or spe.word is None or not may_wait(spe.word):
            return None
        channel = channel_of(spe.word) or EVENT_STATUS
        why = NO_VALUE[channel](self, spe, state) if channel in NO_VALUE else WAITS.get(channel, "its count is 0")
        return f"{channel_name(channel)}: {why}"

    def remark(self, spe: Spe, state: State) -> Optional[str]:
        """What there is to say of how a processor stands: what it waits for, if it does."""
        return self.waits(spe, state)

    def no_event(self, spe: Spe, state: State) -> str:
        """Why a processor has no event that it could read."""
        mask, pending = events_of(self.flow(spe.number, state))
        outside = f"; pending but not in the mask: {events_in(pending)}" if pending else ""
        return (f"no event of its mask {events_in(mask)} is pending" if mask else "its event mask is 0") + outside

    def no_place(self, spe: Spe, state: State) -> str:
        """Why a command isn't issued: an atomic one needs the slot, every other one a place of the queue."""
        opcode = int(spe.register((spe.word or 0) & 0x7F)[4:8], 16)  # the lower halfword of word 0
        return "another atomic command is outstanding" if opcode in ATOMIC else "the MFC command queue is full"

    def no_tag_status(self, spe: Spe, state: State) -> str:
        """Why a tag status doesn't come: it isn't fixed yet, an earlier instruction took it, or none was asked for."""
        flow, requests = self.flow(spe.number, state), TagRequests(self.steps_made(), spe.number)
        if "request" in flow:
            how, groups = flow["request"]
            outstanding = [fields_of(line) for number, line in state.flows if number == spe.number and line.startswith("command ")]
            left = [f"command {words[2]} (tag {words[5]}{', stalled' if 'stalled' in told else ''})"
                    for words, told in outstanding if has_group(int(groups), int(words[5]))]
            asked = f"{self.step_at(spe.number, requests.asked)} requested {request_of(int(how), int(groups))}"
            return f"the tag status is not available yet: {asked}, and {' and '.join(left) or 'nothing'} {'is' if len(left) < 2 else 'are'} outstanding"
        if requests.asked is None:
            return f"no tag status was requested: request one with {REQUEST}"
        if requests.taken is None:
            return "no tag status is available"
        asked, taken = (self.step_at(spe.number, place) for place in (requests.asked, requests.taken))
        return f"no tag status is available: the one requested in {asked} was read in {taken}; request another with {REQUEST}"

    def steps_made(self) -> Sequence[str]:
        """The effects of the steps that were made, as far as they are known."""
        return self.known_steps()

    def step_at(self, spe: int, place: Optional[int]) -> str:
        """A step of a processor that executed an instruction, with the instruction's line."""
        if place is None:
            return "a step"
        found = FETCHED.search(self.steps_made()[place])
        site = self.sites.of_processor[spe].get(int(found[1])) if found else None
        return f"step {place}" + (f" at {site.place}" if site else "")

    def no_stall(self, spe: Spe, state: State) -> str:
        """What is behind a stall status that has no bit: lists may wait for an acknowledgement of what was read before."""
        stalled = [fields_of(line)[0] for number, line in state.flows if number == spe.number and line.startswith("command ") and line.endswith("| stalled")]
        if not stalled:
            return "no list command has stalled"
        named = " and ".join(f"command {words[2]} (tag {words[5]})" for words in stalled)
        have, them = ("has", "its tag") if len(stalled) == 1 else ("have", "their tags")
        return f"all stalls have been read, but {named} {have} not been acknowledged: write {them} with wrch $ch26"

    def where(self, state: State, looked_at: Optional[int]) -> Iterator[str]:
        """Where all processors are, and the host."""
        self.learn(state)
        for spe in state.spes:
            mark = ">" if spe.number == looked_at and len(state.spes) > 1 else " "
            yield f"{mark} {self.stands(spe)}"
            remark = self.remark(spe, state)
            if remark:
                yield f"      {remark}"
        yield from self.host(state)

    def host(self, state: State) -> Iterator[str]:
        """How far the host has come."""
        done, actions = state.host
        if actions:
            may = "" if done == actions or "h" in state.may else " (not possible yet)"
            yield f"  host: {done} of {counted(actions, 'action')} done" + (f"; next: {self.sites.action(done)}{may}" if done < actions else "")

    def flow(self, spe: int, state: State) -> Told:
        """What run_trace tells of a processor's flow controller, by names."""
        return next(fields_of(line)[1] for number, line in state.flows if number == spe and line.startswith("flow "))


# Of channels whose wait has more to tell, what says it.
NO_VALUE = {EVENT_STATUS: Standing.no_event, COMMAND: Standing.no_place, 24: Standing.no_tag_status, 25: Standing.no_stall}


def state_behind(machine: Path, record: Path) -> State:
    """How the machine of a machine file stands behind all steps of a record; Refused where that can't be told."""
    return State(ask_tracer("go", machine, record, str(steps_of(record)), os.devnull))


def waiting_of(machine: Path, record: Path) -> List[str]:
    """A line for each SPU that still runs after a record: its next instruction with file and line, and what it waits for, if it does. Refused if that can't be
    found."""
    standing = Standing(Sites(machine, str(machine)), functools.cache(lambda: ask_tracer("effects", machine, record)))
    state = state_behind(machine, record)
    standing.learn(state)
    return [standing.running_line(spe, state) for spe in state.spes if spe.runs]
