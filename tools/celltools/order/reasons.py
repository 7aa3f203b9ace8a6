"""Why neither of two steps that race happens before the other, and how to fix it: the steps of their sides, by the rules of docs/reference/order.md."""
import functools
import re
from typing import List, Optional, Sequence, Tuple, Union

from celltools.order.graph import Order, Past
from celltools.run.effects import NO_COMMAND, OF_COMMANDS, Command, has_group
from celltools.run.runs import Places
from celltools.telling.words import ATOMIC, MARKS, Teller, name_of, request_of

MOST = 6  # events of a kind that are listed
STATUS_CHANNELS = {24: "the tag status", 25: "the list stall status", 27: "the atomic status"}
UNMARKED = ("putqlluc",)  # the queued commands that have neither a fence nor a barrier
NO_MARK = "has no fence or barrier: the MFC runs such commands in any order, even with the same tag"
WAIT = "wrch $ch22,mask; wrch $ch23,2; rdch $ch24   [TagSeen]"  # the instructions that wait for a tag, and the rule by which they order
# How one processor releases another, or the host, and how the host releases one, with the rules by which this orders.
BETWEEN = "by atomic commands on one line, a mailbox or a signal", "Line, Passed or Signalled"
TO_HOST = "by its outbound mailbox, or by its end, which the host awaits", "Passed or Finished"
FROM_HOST = "by the inbound mailbox or a signal register", "Passed or Signalled"
# By the field of the step with which a side releases the other, what that step is.
RELEASING = {"put": "the mailbox write", "take": "the mailbox read", "signal": "the signal read", "ended": "the stop"}


# The titles of what is said of a race.
SHARED, BEFORE, REASONS = "shared bytes", "happens before the second", "why the first does not happen before the second"


def fix_title(remedies: Sequence[str]) -> str:
    return "how to fix it" if len(remedies) == 1 else "how to fix it (any one of these)"


class Race:
    """Two steps that race: their places, and the places that are ordered before the second.

    The side of a step is its processor with its flow controller, or the host. `begin` is the issue of the first's command, or the first itself; `anchor`
    is the step from which the second waits for what its side did: the issue of its command, or itself. `last` is the last step of the first's side that is
    ordered before the second. What is to order the first has to come before `bound`: the anchor where the sides are one; else the step of its program with
    which the first's side did `last`.
    """

    def __init__(self, teller: Teller, first: int, second: int, before: Union[Places, Past], order: Optional[Order] = None) -> None:
        self.teller, self.trace, self.before = teller, teller.trace, before
        self.first, self.second = first, second
        self.one, self.two = self.trace.steps[first], self.trace.steps[second]
        self.begin, self.anchor = teller.program_step(first), teller.program_step(second)
        self.same = self.one.spe == self.two.spe
        if order:
            self.order = order
        self.last = self.last_ordered()
        self.bound = self.anchor if self.same else teller.program_step(self.last) if self.last >= 0 else -1

    @functools.cached_property
    def order(self) -> Order:
        """The order of the run, made when it is first asked."""
        return Order(self.trace)

    def last_ordered(self) -> int:
        """The last step of the first's side that is ordered before the second; -1 where there is none."""
        mine = re.compile("h" if self.one.spe is None else rf"[xaper] {self.one.spe}\b")
        lines = self.trace.lines
        return next((k for k in range(self.second - 1, -1, -1) if mine.match(lines[k]) and k in self.before), -1)

    def side(self) -> str:
        return self.teller.who(self.first)

    def other(self) -> str:
        return self.teller.who(self.second)

    def command(self) -> Command:
        return self.trace.command_of(self.one)

    def own(self, field: str, start: int, end: int) -> List[int]:
        """The places of the first's side that have a field."""
        return [k for k in self.trace.with_field(field, start, max(start, end)) if self.trace.steps[k].spe == self.one.spe]

    # ---- how far the order comes

    def how_far(self) -> List[str]:
        if self.last < 0:
            return [f"no step of {self.side()} happens before the second"]
        what = self.teller.what(self.last)
        return [f"step {self.last} is the last step of {self.side()} that happens before the second: {what}", *self.teller.origin(self.last)]

    # ---- why it doesn't come to the first

    def reasons(self) -> List[str]:
        if {self.one.kind, self.two.kind} == {"atomic", "piece"} and not self.same:
            return self.of_line()
        if self.same and self.begin > self.anchor:
            return self.of_early()
        if self.same:
            return self.within_side() + self.of_marks()
        if self.begin > self.bound:
            return self.of_later() + self.of_words() + self.of_signal(self.second)
        return self.within_side() + self.of_signal(self.first)

    def within_side(self) -> List[str]:
        """Why the first isn't ordered before what its own side did at the bound."""
        if self.one.kind in OF_COMMANDS:
            return self.of_statuses()
        return [f"nothing waits for the {ATOMIC[self.one.told['atomic'][0]]}: its atomic status is not read before step {self.bound}", *self.only_counted()]

    def of_early(self) -> List[str]:
        """Of a second step whose command was issued before the first, or before the first's command, by the same processor."""
        if self.begin == self.first:
            return [f"the second's command was issued in step {self.anchor}, before the first: a command does not wait for later instructions"]
        return [f"the second's command was issued in step {self.anchor}, before the first's command in step {self.begin}: a command does not wait for later ones"]

    def of_line(self) -> List[str]:
        """Of an atomic command and a transfer of another processor, on one line."""
        piece = self.first if self.one.kind == "piece" else self.second
        return [f"{self.the_command(piece)} is not atomic: rule Line orders only atomic commands and PUTQLLUCs on the same line"]

    def of_later(self) -> List[str]:
        """Of a first step behind all that its side did before the second."""
        what = "the first comes" if self.begin == self.first else f"the first's command was issued in step {self.begin},"
        if self.last > self.begin:
            return [f"{what} after step {self.bound}, which issued the command of step {self.last}"]
        if self.last >= 0:
            return [f"{what} after step {self.last}"]
        return [f"{self.side()} did not release {self.other()} before step {self.anchor} {self.between(self.first)[0]}"]

    def of_statuses(self) -> List[str]:
        """Of a step of a queued command: the statuses that its processor read up to the bound, and why none orders it."""
        places = self.own("(?:tags|stalls)", self.begin, self.bound)
        said = [f"{self.why_status(k)} {self.teller.aside(k)}" for k in places[-MOST:]]
        if len(places) > MOST:
            said.insert(0, f"({len(places) - MOST} earlier status reads do not wait for it either)")
        if not places:
            said.append(f"nothing waits for the {self.name()}: no tag status is read between its issue (step {self.begin}) and step {self.bound}, "
                        "so it may complete at any later time")
            said += self.read_before() + self.unread_request() + self.only_counted()
        return said + self.too_late()

    def why_status(self, place: int) -> str:
        step, tag = self.trace.steps[place], self.command().tag
        if "stalls" in step.told:
            reason = "which waits only for elements with the stall flag" if has_group(step.number("stalls") or 0, tag) else f"which does not include its tag, {tag}"
            return f"step {place} reads the list stall status 0x{step.number('stalls'):x}, {reason}"
        groups = step.number("tags") or 0
        reason = f"which was taken before the {self.name()} was issued" if has_group(groups, tag) else f"which does not include its tag, {tag}"
        return f"step {place} reads the tag status 0x{groups:x}, {reason}"

    def read_before(self) -> List[str]:
        """The last status of the command's tag, where it was read before the issue."""
        tag = self.command().tag
        read = [k for k in self.own("tags", 0, self.begin) if has_group(self.trace.steps[k].number("tags") or 0, tag)]
        if not read:
            return []
        return [f"step {read[-1]} reads the tag status 0x{self.trace.steps[read[-1]].number('tags'):x}, before the {self.name()} is issued {self.teller.aside(read[-1])}"]

    def unread_request(self) -> List[str]:
        """That a status was asked for, and not read."""
        asked = self.own("request", self.begin, self.bound)
        if not asked:
            return []
        how, groups = (self.trace.steps[asked[-1]].number("request", k) or 0 for k in (0, 1))
        return [f"step {asked[-1]} requests a tag status ({request_of(how, groups)}) that is not read before step {self.bound} {self.teller.aside(asked[-1])}"]

    def only_counted(self) -> List[str]:
        """That a status was counted, and not read."""
        counted = [k for k in self.own("rchcnt", self.begin, self.bound) if self.trace.steps[k].number("rchcnt") in STATUS_CHANNELS]
        if not counted:
            return []
        channel = self.trace.steps[counted[-1]].number("rchcnt") or 0
        return [f"step {counted[-1]} only reads the count of {STATUS_CHANNELS[channel]} (rchcnt), which orders nothing {self.teller.aside(counted[-1])}"]

    def too_late(self) -> List[str]:
        """The status that orders the first before it, where it comes too late."""
        rules = ("TagSeen", "StallSeen") if self.flagged() else ("TagSeen",)
        for k in self.trace.with_field("(?:tags|stalls)", max(self.begin, self.bound)):
            for rule in rules:
                if self.order.is_direct(self.first, k, rule):
                    late = "the second" if self.same and self.anchor == self.second else f"step {self.bound}"
                    return [f"step {k} waits for the first, but too late: after {late} {self.teller.aside(k)}   [{rule}]"]
        return []

    def flagged(self) -> bool:
        """Whether the first is a step of a list's element behind which the list stalls."""
        element = self.trace.element_of(self.first)
        read = element and self.trace.steps[self.trace.elements[element[:2]][element[2]]].element_read()
        return bool(read and read.flagged)

    def of_marks(self) -> List[str]:
        """Of two queued commands of one processor: the fence or barrier of the later one."""
        if self.one.kind not in OF_COMMANDS or self.two.kind not in OF_COMMANDS:
            return []
        one, two = self.command(), self.trace.command_of(self.two)
        name = name_of(two)
        if two.mark == "-":
            return [f"the second's command ({name}) {NO_MARK}"]
        return [f"the second's command ({name}) has a {two.mark}, which waits only for commands with its own tag, {two.tag}: the first's has tag {one.tag}"]

    def signal_behind(self, place: int) -> Optional[int]:
        """The place at which a SNDSIG is delivered with which the side of one of the two steps, of a queued command, released the other, and which was
        issued after that command; None if there is none."""
        command = self.trace.commands.get(self.trace.steps[place].command_key() or NO_COMMAND)
        other, start = (self.second, self.begin) if place == self.first else (self.first, self.anchor)
        sent = [k for k in self.trace.with_field("signal", start, other) if command and self.is_sent_behind(k, command)]
        before = self.before if place == self.first or not sent else self.order.before(self.first)
        return next((k for k in reversed(sent) if k in before), None)

    def is_sent_behind(self, place: int, command: Command) -> bool:
        """Whether a step is one of a later command of the same processor."""
        later = self.trace.commands.get(self.trace.steps[place].command_key() or NO_COMMAND)
        return later is not None and later.spe == command.spe and later.number > command.number

    def of_signal(self, place: int) -> List[str]:
        """Why a SNDSIG that was issued after the command of one of the two steps isn't ordered after it."""
        sent = self.signal_behind(place)
        if sent is None:
            return []
        command, signal = (self.trace.command_of(self.trace.steps[k]) for k in (place, sent))
        which = "first" if place == self.first else "second"
        when = f"here it was delivered {'before' if sent < place else 'after'} the {which}"
        name = f"the SNDSIG{MARKS[signal.mark]} of step {sent}, which releases {self.teller.who(self.first + self.second - place)},"
        if signal.mark == "-":
            return [f"{name} {NO_MARK}; {when}"]
        return [f"{name} has a {signal.mark}, which waits only for commands with its own tag, {signal.tag}: the {which}'s has tag {command.tag}; {when}"]

    def of_words(self) -> List[str]:
        """The synchronization of the two sides, which doesn't order them: steps that move lines whole, values of mailboxes, and signals."""
        words = [k for k in range(max(self.last, 0), self.second) if self.is_word(k)]
        taken = [k for k in range(self.anchor - 1, -1, -1) if self.is_word(k) and self.trace.steps[k].spe == self.two.spe][:1]
        words = sorted({*words, *taken})
        if not words:
            return [f"neither {self.side()} nor {self.other()} uses an atomic command, a mailbox or a signal in between"]
        said = [f"  ({len(words) - 2 * MOST} earlier ones)"] if len(words) > 2 * MOST else []
        said += [f"  step {k}, {self.teller.word(k)}{self.remark(k, taken)} {self.teller.aside(k)}" for k in words[-2 * MOST :]]
        return [f"synchronization of {self.side()} and {self.other()}, none of which orders the two steps:", *said]

    def remark(self, place: int, taken: Sequence[int]) -> str:
        """Why one of these steps doesn't order the first before the second."""
        if place not in self.before:
            return f": too late, it does not happen before step {self.anchor} of {self.other()}"
        if self.trace.steps[place].spe == self.one.spe:
            return ": before the first" if place < self.first else ": its command was issued before the first's"
        has_lost = place in taken and self.trace.steps[place].number("status") == 1
        return f", but {self.other()} went on" if has_lost else ""

    def is_word(self, place: int) -> bool:
        """Whether a step of one of the two sides can synchronize it with another."""
        line = self.trace.lines[place]
        passes = line.startswith("a ") or bool(self.trace.whole_lines(place)) or " | put " in line or " | take " in line
        passes = passes or " | awaited " in line or " | signal " in line
        return passes and self.trace.steps[place].spe in (self.one.spe, self.two.spe)

    # ---- how to fix it

    def remedies(self) -> List[str]:
        """Changes that would order them, each with the name of its rule."""
        if self.same:
            return self.within_one()
        said = []
        if {self.one.kind, self.two.kind} == {"atomic", "piece"}:
            piece = self.first if self.one.kind == "piece" else self.second
            return [f"replace {self.the_command(piece)} by an atomic command, since atomic commands on one line are ordered   [Line]"]
        if self.begin <= self.bound and self.one.kind in OF_COMMANDS:
            said += self.mark_for_signal(self.first)
            said.append(f"wait for tag {self.command().tag} after step {self.begin} and before step {self.bound} ({self.releasing()} that releases {self.other()}): {WAIT}")
            return said + self.barrier_for_last()
        said += self.mark_for_signal(self.second)
        return said + [self.release(self.first, self.anchor), self.release(self.second, self.begin)]

    def mark_for_signal(self, place: int) -> List[str]:
        """A mark on the SNDSIG with which the side of one of the two steps, of a queued command, released the other."""
        sent = self.signal_behind(place)
        if sent is None:
            return []
        command, signal = (self.trace.command_of(self.trace.steps[k]) for k in (place, sent))
        tag = "" if signal.tag == command.tag else f" with tag {command.tag}"
        order = "" if place == self.first else "to order the second before the first: "
        return [f"{order}use SNDSIGF or SNDSIGB{tag} for the signal of step {sent}, which then waits for earlier commands with the same tag   [Queue]"]

    def barrier_for_last(self) -> List[str]:
        """A barrier on the first's command, if the last step that happens before the second is one of a later command of its tag."""
        one, last = self.command(), self.trace.commands.get(self.trace.steps[self.last].command_key() or NO_COMMAND)
        if last is None or last.number <= one.number or last.tag != one.tag or last.spe != one.spe or one.kind in UNMARKED:
            return []
        base = name_of(one._replace(mark="-"))
        return [f"use {base}B for the first's command: then the later command of step {self.last}, which has the same tag, waits for it   [Queue]"]

    def within_one(self) -> List[str]:
        if self.begin > self.anchor:
            return self.second_first()
        until = f"before step {self.anchor}" + ("" if self.anchor == self.second else " (the issue of the second's command)")
        if self.one.kind in OF_COMMANDS:
            tag = self.command().tag
            said = self.fences() + [f"wait for tag {tag} after step {self.begin} and {until}: {WAIT}"]
            return said + [f"read the list stall status with tag {tag} {until}: rdch $ch25   [StallSeen]"] * self.flagged()
        return [f"read the atomic status {until}: rdch $ch27   [AtomicSeen]"]

    def second_first(self) -> List[str]:
        """Of a second step whose command was issued earlier: changes that would order it before the first, or the first before its issue."""
        between = f"after step {self.anchor} and before step {self.begin}"
        said = [f"move the first before step {self.anchor}, which issues the second's command   [Issued]"] if self.begin == self.first else []
        if self.two.kind == "atomic":
            return [*said, f"to order the second before the first: read the atomic status {between}: rdch $ch27   [AtomicSeen]"]
        two = self.trace.command_of(self.two)
        if self.one.kind in OF_COMMANDS and self.command().kind not in UNMARKED:
            one = self.command()
            base, tag = name_of(one._replace(mark="-")), "" if one.tag == two.tag else f" with tag {two.tag}"
            said.append(f"to order the second before the first: use {base}F or {base}B{tag} for the first's command, which then waits for earlier commands with the same tag   [Queue]")
        return [*said, f"to order the second before the first: wait for tag {two.tag} {between}: {WAIT}"]

    def fences(self) -> List[str]:
        """A mark on the second's command, where it is a later queued one."""
        if self.two.kind not in OF_COMMANDS:
            return []
        one, two = self.command(), self.trace.command_of(self.two)
        if two.kind in UNMARKED:
            also = "" if two.tag == one.tag else f" and tag {one.tag} for the second's"
            return [f"use {name_of(one._replace(mark='-'))}B for the first's command{also}: then the second's waits for it   [Queue]"]
        base, tag = name_of(two._replace(mark="-")), "" if two.tag == one.tag else f" with tag {one.tag}"
        return [f"use {base}F or {base}B{tag} for the second's command, which then waits for earlier commands with the same tag   [Queue]"]

    def the_command(self, place: int) -> str:
        """The command of a step, with the other article."""
        return f"the {self.teller.command(place).partition(' ')[2]}"

    def name(self) -> str:
        """The name of the first's command."""
        return name_of(self.command())

    def releasing(self) -> str:
        """The step of the first's side with which it releases the other."""
        step = self.trace.steps[self.bound]
        issued = step.issued()
        if issued or "atomic" in step.told:
            return f"the {name_of(issued) if issued else ATOMIC[step.told['atomic'][0]]}"
        return next((words for field, words in RELEASING.items() if field in step.told), "the step")

    def release(self, place: int, until: int) -> str:
        """How one side releases the other after the step at a place, with the rules by which this orders."""
        here, there, order = (self.side(), self.other(), "first before the second") if place == self.first else (self.other(), self.side(), "second before the first")
        how, rules = self.between(place)
        return f"to order the {order}: {self.wait(place)}, then let {here} release {there} before step {until} {how}   [{rules}]"

    def between(self, place: int) -> Tuple[str, str]:
        """How the side of a step can release the other, and the rules by which that orders."""
        spes = (self.one.spe, self.two.spe) if place == self.first else (self.two.spe, self.one.spe)
        return FROM_HOST if spes[0] is None else TO_HOST if spes[1] is None else BETWEEN

    def wait(self, place: int) -> str:
        """How its own side waits for a step."""
        step, which = self.trace.steps[place], "first" if place == self.first else "second"
        if step.kind in OF_COMMANDS:
            return f"wait for tag {self.trace.command_of(step).tag} after step {self.teller.program_step(place)} [TagSeen]"
        return f"read the {which}'s atomic status [AtomicSeen]" if step.kind == "atomic" else f"do the {which}"
