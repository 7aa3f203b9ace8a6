"""The bars of a picture, a command each, and its arrows, a pair of steps of a rule each."""
from typing import Any, Dict, Iterable, Iterator, List, Optional, Tuple

from celltools.order.graph import NO_CHAIN, Link, Member
from celltools.picture.run import Run
from celltools.run.effects import NO_COMMAND, Key

KINDS = ("put", "get", "putl", "getl", "barrier", "putqlluc", "sndsig")
MARKS = ("-", "fence", "barrier")
MOST = 16     # commands that one arrow's end is drawn from: as many as a queue has places
NEVER = -1    # the end of a command that isn't done

Row = List[Any]  # an array of JSON: numbers, and one list of them

# The rules that are drawn, each with how its pairs are chosen. What follows from others isn't drawn.
SINGLE = ("Passed", "Signalled", "Finished", "AtomicIssued", "AtomicSeen")


def bars(run: Run) -> List[Row]:
    """The rows of the commands: processor, number, kind, mark, tag, store and memory address, size, issue, first, last step and end, stalls."""
    rows: List[Row] = []
    for key, member in run.order.commands.items():
        command, steps = member.command, run.steps_of(key)
        end = NEVER if key in run.end.outstanding or not steps else max(steps[-1:] + run.order.sets[-member.acks - 1][-1:])
        stalls = [[at, next((ack for ack in run.order.sets[-member.acks - 1] if ack > at), NEVER)] for at in member.stalls]
        rows.append([command.spe, command.number, KINDS.index(command.kind), MARKS.index(command.mark), command.tag, command.ls, command.ea, command.size,
                     run.trace.issues[key], steps[0] if steps else NEVER, steps[-1] if steps else NEVER, end, stalls])
    return rows


def atomics(run: Run, keys: Iterable[int]) -> List[Row]:
    """Of the atomic commands that have a row: processor, issue, step."""
    return [[run.trace.steps[place].spe, node, place]
            for place in keys if run.trace.lines[place][0] == "a" for node, rule in run.order.edges[place] if rule == "AtomicIssued"]


def slots(commands: List[Row], atomic: List[Row], count: int) -> Dict[int, int]:
    """For each bar a place beside the others of its flow controller that are there at the same time."""
    wanted = [(row[8], count if row[11] == NEVER else row[11], row) for row in commands] + [(row[1], row[2], row) for row in atomic]
    taken: Dict[int, List[int]] = {}
    for start, end, row in sorted(wanted, key=lambda bar: bar[:2]):
        ends = taken.setdefault(row[0], [])
        slot = next((n for n, until in enumerate(ends) if until < start), len(ends))
        ends[slot:slot + 1] = [end]
        row.append(slot)
    return {spe: len(ends) for spe, ends in taken.items()}


class Arrows:
    """The arrows: pairs of steps with the rule that orders them directly."""

    def __init__(self, run: Run) -> None:
        self.order, self.trace = run.order, run.trace
        self.found: List[Link] = []
        self.shown: Dict[Tuple[int, int], int] = {}  # of a processor and tag, the number behind the last command that a status showed
        self.of_steps = {member.steps: (key, member) for key, member in run.order.commands.items()}
        self.firsts = {run.order.sets[-member.steps - 1][0] for member in run.order.commands.values() if run.order.sets[-member.steps - 1]}
        for place in sorted(run.order.edges):
            for node, rule in run.order.edges[place]:
                self.look_at(place, node, rule)

    def look_at(self, place: int, node: int, rule: str) -> None:
        if rule in SINGLE:
            self.single(place, self.order.latest(node), rule)
        elif rule == "Line":
            self.line(place, self.order.latest(node))
        elif rule in ("Issued", "Queue") and place in self.firsts:
            self.found += [(node, place, rule)] if rule == "Issued" else [(last, place, rule) for last in self.unseen(node)]
        elif rule == "TagSeen":
            self.tag_seen(place, node)
        elif rule == "StallSeen":
            self.found.append((self.order.latest(node), place, rule))
        elif rule == "Resumed":
            self.resumed(place, self.order.latest(node))

    def single(self, place: int, before: int, rule: str) -> None:
        """A rule with one pair, but not between two steps of one program."""
        chain = self.order.chains[place]
        if chain == NO_CHAIN or self.order.chains[before] != chain:
            self.found.append((before, place, rule))

    def line(self, place: int, before: int) -> None:
        """Line, between two processors."""
        if self.trace.steps[before].spe != self.trace.steps[place].spe:
            self.found.append((before, place, "Line"))

    def latest_members(self, node: Optional[int]) -> List[Tuple[Key, Member]]:
        """The commands of a set of commands, the latest one first, as many as a queue has places."""
        found: List[Tuple[Key, Member]] = []
        while node is not None and len(found) < MOST:
            if node in self.of_steps:
                found.append(self.of_steps[node])
                break
            inner = self.order.sets[-node - 1]
            found.append(self.of_steps[inner[-1]])
            node = inner[0] if len(inner) > 1 else None
        return found

    def unseen(self, node: int) -> Iterator[int]:
        """The last steps of the commands of a set that no status has shown yet."""
        for key, member in self.latest_members(node):
            if key[1] >= self.shown.get((key[0], member.command.tag), 0):
                yield self.order.latest(member.steps)

    def tag_seen(self, place: int, node: int) -> None:
        """TagSeen, of the commands that no earlier status has shown."""
        members = self.latest_members(node)
        tag = members[0][0][0], members[0][1].command.tag
        self.found += [(self.order.latest(member.steps), place, "TagSeen") for key, member in members if key[1] >= self.shown.get(tag, 0)]
        self.shown[tag] = max(self.shown.get(tag, 0), members[0][0][1] + 1)

    def resumed(self, place: int, ack: int) -> None:
        """Resumed, of the first step behind the acknowledgement."""
        steps = self.order.sets[-self.order.commands[self.trace.steps[place].command_key() or NO_COMMAND].steps - 1]
        if next(step for step in steps if step > ack) == place:
            self.found.append((ack, place, "Resumed"))
