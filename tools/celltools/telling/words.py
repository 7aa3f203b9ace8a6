"""Says in words what the steps of a run are, with the lines of the sources that they come from."""
import functools
import re
from typing import Dict, List, Optional, Sequence

from celltools.run.effects import Command, Step, Trace, has_group
from celltools.source.channels import EVENT_ACK, EVENT_MASK_READ, EVENT_MASK_WRITE, EVENT_STATUS, events_in
from celltools.source.sites import Sites, callers

COMMANDS = {"put": "PUT", "get": "GET", "putl": "PUTL", "getl": "GETL", "barrier": "BARRIER", "putqlluc": "PUTQLLUC",
            "sndsig": "SNDSIG"}
HOW = {0: "the current status of", 1: "any of"}  # how a request of a tag status waits, by the number that is written; every other waits for all
MARKS = {"-": "", "fence": "F", "barrier": "B"}
ATOMIC = {"getllar": "GETLLAR", "putllc": "PUTLLC", "putlluc": "PUTLLUC"}
DELIVERED = re.compile(r" \| deliver (\d+) ")
OUTCOMES = {("putllc", 0): "succeeded", ("putllc", 1): "failed because its reservation was lost"}
BOXES = {"in": "the inbound mailbox", "out": "the outbound mailbox", "intr": "the outbound interrupt mailbox"}
OF_EVENTS = {("rdch", EVENT_STATUS): "a read of the event status", ("rdch", EVENT_MASK_READ): "a read of the event mask",
             ("wrch", EVENT_MASK_WRITE): "a write of the event mask", ("wrch", EVENT_ACK): "an acknowledgement of events"}


def tags(groups: int) -> str:
    """The tags of a set of tag groups."""
    named = [str(tag) for tag in range(32) if has_group(groups, tag)]
    if len(named) > 8:
        return f"tag groups 0x{groups:x}"
    return "no tag" if not named else ("tag " if len(named) == 1 else "tags ") + ", ".join(named)


def request_of(how: int, groups: int) -> str:
    """The tag status that a request asks for: at once, or when one or all of its groups are complete."""
    return f"{HOW.get(how, 'all of')} {tags(groups)}"


def name_of(command: Command) -> str:
    return COMMANDS[command.kind] + MARKS[command.mark]


def signal_register(number: int) -> str:
    """The signal register that a SNDSIG names by its effective address."""
    return f"signal register {number % 2 + 1} of SPU {number // 2}"


def counted(count: int, what: str, plural: str = "") -> str:
    """A number with its noun, whose plural is regular unless one is given."""
    return f"{count} {what if count == 1 else plural or f'{what}s'}"


def with_article(name: str) -> str:
    return f"{'an' if name[0] in 'AEIO' else 'a'} {name}"


def held_before(trace: Trace, place: int) -> List[int]:
    """The values that were delivered to the signal register of a delivery since it was last read, the latest first."""
    spe, register = trace.steps[place].told["signal"]
    mark, values = f" | signal {spe} {register} | ", []
    for line in (f"{trace.lines[at]} | " for at in range(place - 1, -1, -1)):
        if mark not in line:
            continue
        found = DELIVERED.search(line)
        if not found:
            break
        values.append(int(found[1]))
    return values


def over_untaken(before: Sequence[int], value: int, is_or: bool) -> str:
    """What a delivery of a value does to those in its signal register that were never read, the latest first, as an ending; nothing if there are none."""
    if not before:
        return ""
    if not is_or:
        return f" (overwrites 0x{before[0]:x}, which was never read)"
    held = 0
    for part in before:
        held |= part
    return f" (ORed with 0x{held:x}, which was never read: 0x{held | value:x})"


class Teller:
    """Says what the steps of one trace are."""

    def __init__(self, trace: Trace, sites: Sites) -> None:
        self.trace, self.sites, self.names = trace, sites, sites.names

    @functools.cached_property
    def called(self) -> Dict[int, int]:
        """Of each instruction of a routine, the place of the branch that called it."""
        return callers(self.trace, self.sites)

    @functools.cached_property
    def hosts(self) -> List[int]:
        """The places of the host's actions."""
        return [place for place, line in enumerate(self.trace.lines) if line.startswith("h")]

    def who(self, place: int) -> str:
        """The processor or the host whose step it is, that of a flow controller its processor."""
        spe = self.trace.steps[place].spe
        return "the host" if spe is None else f"SPU {spe}"

    def site(self, place: int) -> str:
        """Where an instruction or an action of the host stands."""
        step = self.trace.steps[place]
        if step.kind == "host":
            return self.sites.action(self.hosts.index(place))
        return str(self.sites.at(step.processor, step.fetched.at))

    def issue(self, place: int) -> Optional[int]:
        """The place at which the command of a step was issued; None for a step of no command."""
        step = self.trace.steps[place]
        if step.kind == "atomic":
            return next((k for k in range(place - 1, -1, -1) if self.issues_atomic(k, step.spe)), None)
        key = step.command_key()
        return None if key is None else self.trace.issues.get(key)

    def issues_atomic(self, place: int, spe: Optional[int]) -> bool:
        line = self.trace.lines[place]
        return line.startswith(f"x {spe} ") and " | atomic " in line

    def program_step(self, place: int) -> int:
        """The step of a program that a step stands for: the issue of its command, or itself."""
        issue = self.issue(place)
        return place if issue is None else issue

    def origin(self, place: int) -> List[str]:
        """The lines that say where a step comes from: its instruction's site or that of its command's issue, and the call."""
        at = self.program_step(place)
        lines = [f"at {self.site(at)}" if at == place else f"issued in step {at}, at {self.site(at)}"]
        if self.trace.steps[at].kind == "instruction" and self.is_replaced(at):
            lines[0] += " (overwritten by the run before this step)"
        while at in self.called:
            at = self.called[at]
            lines.append(f"called from {self.site(at)}")
        return lines

    def aside(self, place: int) -> str:
        """Where a step comes from, in parentheses."""
        return f"({'; '.join(self.origin(place))})"

    def is_replaced(self, place: int) -> bool:
        """Whether the run wrote over an instruction before it was executed."""
        fetch = self.trace.steps[place].fetched
        written = re.compile(rf" \| write {fetch.spe} (\d+) (\d+)")
        found = (written.search(line) for line in self.trace.lines[:place])
        return any(int(w[1]) < fetch.at + fetch.size and fetch.at < int(w[1]) + int(w[2]) for w in found if w)

    def command(self, place: int) -> str:
        """The command of a step."""
        return self.command_of(self.trace.command_of(self.trace.steps[place]))

    def command_of(self, command: Command) -> str:
        return f"{with_article(name_of(command))} with tag {command.tag} (command {command.number} of SPU {command.spe})"

    def atomic(self, place: int) -> str:
        """The atomic command of a step, with its outcome."""
        step = self.trace.steps[place]
        kind, _, line = step.told["atomic"]
        status = step.number("status")
        outcome = None if status is None else OUTCOMES.get((kind, status))
        return f"{ATOMIC[kind]} of {self.names.line(int(line))} by {self.who(place)}" + (f", which {outcome}" if outcome else "")

    def what(self, place: int) -> str:
        """What a step is."""
        step = self.trace.steps[place]
        who = self.who(place)
        if step.kind == "host":
            return f"a host action{self.untaken(place)}"
        if step.kind == "instruction":
            words = self.instruction(place)
            return f"{words} {'of' if words.endswith('instruction') else 'by'} {who}"
        if step.kind == "atomic":
            return with_article(self.atomic(place))
        if step.kind == "retirement":
            return f"the completion of {self.command(place)}, which moves no bytes"
        if step.kind == "element":
            found = self.trace.element_of(place)
            return f"the fetch of list element {found[2] if found else 0} of {self.command(place)}"
        element = f" of list element {step.element}" if self.trace.element_of(place) else ""
        way = f"{step.reads.size} bytes from {self.names.start(step.reads)} to {self.target(step)}" if step.reads else ""
        return f"piece {step.part}{element} of {self.command(place)}: {way}{self.untaken(place)}"

    def untaken(self, place: int) -> str:
        """What a delivery does to a value of its signal register that was never read, as an ending; nothing of any other step."""
        step = self.trace.steps[place]
        if "deliver" not in step.told:
            return ""
        spe, register = map(int, step.told["signal"])
        return over_untaken(held_before(self.trace, place), step.number("deliver") or 0, (spe, register) in self.sites.or_modes)

    def target(self, step: Step) -> str:
        """Where a piece brings its bytes."""
        command = self.trace.command_of(step)
        if step.writes and command.kind != "sndsig":
            return self.names.start(step.writes)
        return signal_register(command.ea) + ("" if "signal" in step.told else " (no such register)")

    def instruction(self, place: int) -> str:
        """What an instruction is, apart from its processor."""
        step = self.trace.steps[place]
        if step.reads or step.writes:
            return "a load" if step.reads else "a store"
        issued = step.issued()
        if issued:
            return f"the issue of {with_article(name_of(issued))} with tag {issued.tag}"
        if "atomic" in step.told:
            return f"the issue of {with_article(ATOMIC[step.told['atomic'][0]])}"
        if "signal" in step.told:
            return f"a read of 0x{step.number('rdch', 1):x} from signal register {step.number('signal', 1)}"
        events = next((words for (way, channel), words in OF_EVENTS.items() if step.number(way) == channel), None)
        if events:
            return f"{events} {events_in(step.number('rdch' if 'rdch' in step.told else 'wrch', 1) or 0)}"
        names = {"tags": "a read of the tag status", "stalls": "a read of the list stall status", "atomicread": "a read of the atomic status",
                 "put": "a write of", "take": "a read of", "ended": "the last instruction"}
        found = next((name for name in names if name in step.told), "")
        if found in ("put", "take"):
            return f"{names[found]} 0x{int(step.told[found][2]):x} {'to' if found == 'put' else 'from'} {BOXES[step.told[found][1]]}"
        return names.get(found, "an instruction")

    def word(self, place: int) -> str:
        """A step by which sides synchronize: an atomic command or PUTQLLUC, a mailbox's value, a signal, or the wait for a processor's end."""
        step = self.trace.steps[place]
        if step.kind in ("atomic", "piece"):
            return self.what(place)
        if "signal" in step.told:
            return self.signal(place)
        if "awaited" in step.told:
            return f"the host sees that SPU {step.number('awaited')} has stopped"
        spe, box, value = step.told.get("put") or step.told["take"]
        way, to = ("writes", "to") if "put" in step.told else ("reads", "from")
        return f"{self.who(place)} {way} 0x{int(value):x} {to} {BOXES[box]} of SPU {spe}"

    def signal(self, place: int) -> str:
        """A delivery to a signal register, or a read of it."""
        step = self.trace.steps[place]
        spe, register = map(int, step.told["signal"])
        what = f"signal register {register} of SPU {spe}"
        if step.kind == "host":
            return f"the host delivers 0x{step.number('deliver'):x} to {what}"
        return f"{self.who(place)} reads 0x{step.number('rdch', 1):x} from {what}"
