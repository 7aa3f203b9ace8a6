"""What orders the steps of a run: docs/reference/order.md as a graph of which the paths are the order, made in one pass over the run.

A node is a step, by its place, or a set of nodes, by a number below 0: the steps of a command, the commands of a tag so far, and so on. A rule leads from a
step to the nodes that it orders directly before that step; so each step has few edges, however many steps a set has. That the steps of a program come one
after the other (Program, and of the host Script) has no edges: each program is a chain, of which all before a step is told by one place.
"""
import array
import bisect
import collections
from typing import Callable, DefaultDict, Deque, Dict, List, Optional, Sequence, Set, Tuple

from celltools.run.effects import NO_COMMAND, Command, Key, Step, Trace

RULES = ("Program", "Script", "Issued", "AtomicIssued", "NextAtomic", "AtomicSeen", "Line", "Passed", "PlaceFree", "Signalled", "Finished", "Queue",
         "ElementPiece", "NextElement", "StallSeen", "Resumed", "ResumedEarlier", "TagSeen")
INBOX_PLACES, OTHER_PLACES = 4, 1
HOST, NO_CHAIN = -1, -2  # the chain of the host, and what a step of a flow controller has; that of a processor is its number

Edge = Tuple[int, str]  # a node, and the rule by which it is before a step
Pair = Tuple[Optional[int], Optional[int]]  # of commands so far, the set of their steps and that of their acknowledgements, where there are any
Box = Tuple[str, str]  # a mailbox, or a signal register, as a step's line names it
Link = Tuple[int, int, str]  # two steps, the earlier one first, and the rule that orders them


class Member:
    """A command as the rules see it: its steps as a set, the acknowledgements that let it go on, and what is ordered before each of its next steps."""

    def __init__(self, command: Command, steps: int, acks: int) -> None:
        self.command, self.steps, self.acks = command, steps, acks
        self.entry: List[Edge] = []  # the edges of each next step
        self.stalls: List[int] = []  # the steps behind which it stalled
        self.acks_so_far: Optional[int] = None
        self.elements: List[int] = []  # of a list, the set of the steps of each element that was read
        self.pieces_left = 0  # of the element that was read last
        self.flagged = False


class Flow:
    """What the rules look back at of one flow controller: sets of commands so far, each a pair of the set of their steps and of their acknowledgements."""

    def __init__(self) -> None:
        self.of_tag: Dict[int, Tuple[List[int], List[Pair]]] = {}  # by tag: the numbers of its commands, and behind each command the pair of all so far
        self.barred: Dict[int, Pair] = {}  # by tag: those that have a barrier
        self.all: Pair = (None, None)
        self.barriers: Pair = (None, None)
        self.stalled: Dict[int, List[Member]] = {}  # by tag: the lists that wait for an acknowledgement
        self.finished: Dict[int, int] = {}  # by tag: the set of the steps of the flagged elements that are finished
        self.atomics: Optional[int] = None
        self.atomic_issue: Optional[int] = None


class Order:
    """The order of the steps of a run."""

    def __init__(self, trace: Trace) -> None:
        self.trace, self.count = trace, len(trace.lines)
        self.chains: "array.array[int]" = array.array("b")  # of each step the chain that it is one of
        self.edges: Dict[int, List[Edge]] = {}  # of a step
        self.sets: List[List[int]] = []  # of the set -n, at n - 1, its nodes
        self.special: DefaultDict[int, List[int]] = collections.defaultdict(list)  # of each chain, the places of its steps that have edges
        self.commands: Dict[Key, Member] = {}  # the command with its sets
        self.flows: DefaultDict[int, Flow] = collections.defaultdict(Flow)
        self.on_line: Dict[int, int] = {}
        self.put: Dict[Box, List[int]] = {}
        self.taken: Dict[Box, List[int]] = {}
        self.ended: Dict[int, int] = {}
        self.signalled: Dict[Box, int] = {}
        for place, line in enumerate(trace.lines):
            self.look_at(place, line)
        del self.flows, self.on_line, self.put, self.taken, self.ended, self.signalled

    # ---- the graph

    def look_at(self, place: int, line: str) -> None:
        """Adds what the rules order before a step."""
        letter = line[0]
        self.chains.append(int(line.split(" ", 2)[1]) if letter == "x" else HOST if letter == "h" else NO_CHAIN)
        if letter in "xh":
            if line.count("|") > (letter == "x"):  # an instruction that only fetches has one field
                self.of_program(place, line)
        elif letter == "p":
            self.of_piece(place, line)
        else:
            self.of_flow(place, letter)

    def new_set(self, *nodes: Optional[int]) -> int:
        """A set of the nodes that there are among these."""
        self.sets.append([node for node in nodes if node is not None])
        return -len(self.sets)

    def lead(self, place: int, rule: str, *nodes: Optional[int]) -> None:
        """Puts nodes before a step by a rule."""
        found = [(node, rule) for node in nodes if node is not None]
        if found:
            self.edges.setdefault(place, []).extend(found)

    def lead_also(self, place: int, rule: str, node: Optional[int]) -> None:
        """Puts a node before a step that may share its edges with other steps of its command."""
        if place in self.edges:
            self.edges[place] = list(self.edges[place])
        self.lead(place, rule, node)

    # ---- instructions and actions of the host

    def of_program(self, place: int, line: str) -> None:
        told = {name: words for name, *words in map(str.split, line.split(" | ")[1:])}
        chain = self.chains[place]
        for name in told:
            rule = BY_FIELD.get(name)
            if rule:
                rule(self, place, chain, told[name])
        if place in self.edges:
            self.special[chain].append(place)

    def issue(self, place: int, spe: int, words: Sequence[str]) -> None:
        """Issued, and what Queue will lead from."""
        command, flow = self.trace.commands[spe, int(words[0])], self.flows[spe]
        member = Member(command, self.new_set(), self.new_set())
        before = self.waits(flow, command)
        member.entry = [(place, "Issued")]
        member.entry += [(steps, "Queue") for steps, _ in before if steps is not None]
        member.entry += [(acks, "ResumedEarlier") for _, acks in before if acks is not None]
        self.commands[spe, command.number] = member
        self.join(flow, member)

    def waits(self, flow: Flow, command: Command) -> Tuple[Pair, Pair]:
        """The earlier commands that go before one: docs/reference/order.md, Queue."""
        marked = command.mark in ("fence", "barrier")
        of_tag = flow.of_tag[command.tag][1][-1] if command.tag in flow.of_tag else (None, None)
        return (of_tag if marked else flow.barred.get(command.tag, (None, None)), flow.all if command.kind == "barrier" else flow.barriers)

    def join(self, flow: Flow, member: Member) -> None:
        """Counts a command among those of its tag, of its mark and of its kind."""
        command = member.command
        numbers, pairs = flow.of_tag.setdefault(command.tag, ([], []))
        numbers.append(command.number)
        pairs.append(self.with_member(pairs[-1] if pairs else (None, None), member))
        flow.all = self.with_member(flow.all, member)
        if command.mark == "barrier":
            flow.barred[command.tag] = self.with_member(flow.barred.get(command.tag, (None, None)), member)
        if command.kind == "barrier":
            flow.barriers = self.with_member(flow.barriers, member)

    def with_member(self, pair: Pair, member: Member) -> Pair:
        return self.new_set(pair[0], member.steps), self.new_set(pair[1], member.acks)

    def tag_status(self, place: int, spe: int, words: Sequence[str]) -> None:
        """TagSeen."""
        groups, issued = map(int, words)
        for tag, (numbers, pairs) in self.flows[spe].of_tag.items():
            count = bisect.bisect_left(numbers, issued)
            if groups >> tag & 1 and count:
                self.lead(place, "TagSeen", pairs[count - 1][0])

    def stall_status(self, place: int, spe: int, words: Sequence[str]) -> None:
        """StallSeen."""
        finished = self.flows[spe].finished
        self.lead(place, "StallSeen", *(finished[tag] for tag in sorted(finished) if int(words[0]) >> tag & 1))

    def acknowledge(self, place: int, spe: int, words: Sequence[str]) -> None:
        """Lets lists go on: Resumed and ResumedEarlier will lead from here."""
        for member in self.flows[spe].stalled.pop(int(words[0]), []):
            self.sets[-member.acks - 1].append(place)
            member.acks_so_far = self.new_set(member.acks_so_far, place)
            member.entry = [edge for edge in member.entry if edge[1] != "Resumed"] + [(member.acks_so_far, "Resumed")]

    def issue_atomic(self, place: int, spe: int, _: Sequence[str]) -> None:
        """NextAtomic; AtomicIssued will lead from here."""
        self.lead(place, "NextAtomic", self.flows[spe].atomics)
        self.flows[spe].atomic_issue = place

    def atomic_status(self, place: int, spe: int, _: Sequence[str]) -> None:
        """AtomicSeen."""
        self.lead(place, "AtomicSeen", self.flows[spe].atomics)

    def put_value(self, place: int, _: int, words: Sequence[str]) -> None:
        """PlaceFree."""
        box = words[0], words[1]
        values = self.put.setdefault(box, [])
        places = INBOX_PLACES if words[1] == "in" else OTHER_PLACES
        if len(values) >= places:
            self.lead(place, "PlaceFree", self.taken[box][len(values) - places])
        values.append(place)

    def take_value(self, place: int, _: int, words: Sequence[str]) -> None:
        """Passed."""
        box = words[0], words[1]
        values = self.taken.setdefault(box, [])
        self.lead(place, "Passed", self.put[box][len(values)])
        values.append(place)

    def pass_signal(self, place: int, _: int, words: Sequence[str]) -> None:
        """Signalled."""
        register = words[0], words[1]
        self.lead_also(place, "Signalled", self.signalled.get(register))
        self.signalled[register] = self.new_set(self.signalled.get(register), place)

    def end_processor(self, place: int, spe: int, _: Sequence[str]) -> None:
        self.ended[spe] = place

    def await_processor(self, place: int, _: int, words: Sequence[str]) -> None:
        """Finished."""
        self.lead(place, "Finished", self.ended[int(words[0])])

    # ---- steps of flow controllers

    def of_piece(self, place: int, line: str) -> None:
        """A piece of a command, or of an element of a list."""
        spe, number = map(int, line.split(" ", 3)[1:3])
        member = self.commands[spe, number]
        self.of_member(place, member)
        if member.elements:
            self.lead(place, "ElementPiece", self.sets[-member.elements[-1] - 1][0])
            self.sets[-member.elements[-1] - 1].append(place)
            member.pieces_left -= 1
            self.finish(place, spe, member)
        elif member.command.kind == "putqlluc":
            self.of_lines(place)
        elif member.command.kind == "sndsig":
            told = self.trace.steps[place].told
            if "signal" in told:  # a register that isn't there takes nothing
                self.pass_signal(place, spe, told["signal"])

    def of_flow(self, place: int, letter: str) -> None:
        """The reading of an element, the retirement of a command, or an atomic command."""
        step = self.trace.steps[place]
        if letter == "a":
            self.of_atomic(place, step)
            return
        member = self.commands[step.command_key() or NO_COMMAND]
        self.of_member(place, member)
        if letter == "e":
            self.of_element(place, step, member)

    def of_member(self, place: int, member: Member) -> None:
        """What is ordered before each step of a command."""
        self.sets[-member.steps - 1].append(place)
        self.edges[place] = member.entry if not member.elements else list(member.entry)

    def of_element(self, place: int, step: Step, member: Member) -> None:
        """NextElement."""
        self.edges[place] = list(member.entry)
        if member.elements:
            self.lead(place, "NextElement", member.elements[-1])
        member.elements.append(self.new_set(place))
        if "ended" in step.told:  # a faulty one, with which the processor ceases to run
            self.end_processor(place, step.processor, ())
        read = step.element_read()
        if read:
            member.pieces_left, member.flagged = read.parts, read.flagged
            self.finish(place, step.processor, member)

    def finish(self, place: int, spe: int, member: Member) -> None:
        """Where a flagged element is finished, the list stalls behind it."""
        if member.pieces_left or not member.flagged:
            return
        member.stalls.append(place)
        tag, flow = member.command.tag, self.flows[spe]
        flow.finished[tag] = self.new_set(flow.finished.get(tag), member.elements[-1])
        flow.stalled.setdefault(tag, []).append(member)

    def of_atomic(self, place: int, step: Step) -> None:
        """AtomicIssued and Line."""
        flow = self.flows[step.processor]
        self.lead(place, "AtomicIssued", flow.atomic_issue)
        self.of_lines(place)
        flow.atomics, flow.atomic_issue = self.new_set(flow.atomics, place), None

    def of_lines(self, place: int) -> None:
        """Line."""
        for at in sorted(self.trace.whole_lines(place)):
            self.lead_also(place, "Line", self.on_line.get(at))
            self.on_line[at] = self.new_set(self.on_line.get(at), place)

    # ---- what is read off the graph

    def members(self, node: int) -> List[int]:
        """The steps of a node."""
        found: List[int] = []
        seen: Set[int] = set()
        stack = [node]
        while stack:
            node = stack.pop()
            if node in seen:
                continue
            seen.add(node)
            if node >= 0:
                found.append(node)
            else:
                stack += self.sets[-node - 1]
        return found

    def latest(self, node: int) -> int:
        """The latest step of a node."""
        while node < 0:
            node = self.sets[-node - 1][-1]
        return node

    def direct(self, place: int) -> List[Edge]:
        """The pairs of a step and a rule that orders it directly before a step, but for Program and Script."""
        return [(step, rule) for node, rule in self.edges.get(place, ()) for step in self.members(node)]

    def of_chain(self, place: int) -> Tuple[List[int], Optional[str]]:
        """The steps before a step in its chain, and the rule that orders them, directly too."""
        chain = self.chains[place]
        if chain == NO_CHAIN:
            return [], None
        return [k for k in range(place) if self.chains[k] == chain], "Script" if chain == HOST else "Program"

    def is_direct(self, first: int, second: int, rule: str) -> bool:
        """Whether a rule orders two steps directly."""
        if rule in ("Program", "Script"):
            chain = self.chains[second]
            return first < second and chain != NO_CHAIN and self.chains[first] == chain and (rule == "Script") == (chain == HOST)
        return any(name == rule and first in self.members(node) for node, name in self.edges.get(second, ()))

    def before(self, place: int, without: Optional[str] = None) -> "Past":
        """What is ordered before a step; where `without` is a rule's name, without that rule."""
        return Past(self, place, without)


class Past:
    """The steps that are ordered before one: of each chain those up to a place, and steps of flow controllers. It keeps by which node and rule one comes on
    from each towards that one, over as few rules as there are."""

    def __init__(self, order: Order, target: int, without: Optional[str] = None) -> None:
        self.order, self.target, self.without = order, target, without
        self.limits: Dict[int, int] = {}  # of each chain the last place that is before the target, or is it
        self.entries: Dict[int, List[Link]] = {}  # of each chain the places at which one leaves it, as they were found: (place, onward, rule)
        self.onward: Dict[int, Tuple[int, str]] = {}  # of the other nodes: (onward, rule)
        self.queue: Deque[Link] = collections.deque([(target, target, "")])  # a node, that to which it leads, and the rule
        while self.queue:
            self.visit(*self.queue.popleft())

    def visit(self, node: int, onward: int, rule: str) -> None:
        chain = self.order.chains[node] if node >= 0 else NO_CHAIN
        if chain != NO_CHAIN:
            self.visit_chain(chain, node, onward, rule)
        elif node not in self.onward:
            self.onward[node] = onward, rule
            if node < 0:
                self.queue.extendleft((member, node, "") for member in self.order.sets[-node - 1])
            else:
                self.follow(node)

    def visit_chain(self, chain: int, place: int, onward: int, rule: str) -> None:
        """All of a chain up to a place; without Program or Script, the step alone."""
        if self.without == ("Script" if chain == HOST else "Program"):
            if place not in self.onward:
                self.onward[place] = onward, rule
                self.follow(place)
            return
        limit = self.limits.get(chain, -1)
        if place <= limit:
            return
        self.limits[chain] = place
        self.entries.setdefault(chain, []).append((place, onward, rule))
        special = self.order.special.get(chain, [])
        for k in special[bisect.bisect_right(special, limit):bisect.bisect_right(special, place)]:
            self.follow(k)

    def follow(self, place: int) -> None:
        self.queue.extend((node, place, rule) for node, rule in self.order.edges.get(place, ()) if rule != self.without)

    def __contains__(self, place: int) -> bool:
        if place == self.target:
            return False
        if place in self.onward:
            return True
        return place <= self.limits.get(self.order.chains[place], -1)

    def path(self, place: int) -> List[Link]:
        """The pairs of rules that lead from a step to the target: (earlier, later, rule)."""
        pairs: List[Link] = []
        while place != self.target:
            chain = self.order.chains[place]
            if chain == NO_CHAIN:
                onward, rule = self.onward[place]
            else:
                leaves, onward, rule = next(entry for entry in self.entries[chain] if entry[0] >= place)
                if leaves > place:
                    pairs.append((place, leaves, "Script" if chain == HOST else "Program"))
                place = leaves
            if place == self.target:
                break
            while onward < 0:
                onward, rule = self.onward[onward][0], rule or self.onward[onward][1]
            pairs.append((place, onward, rule))
            place = onward
        return pairs


BY_FIELD: Dict[str, Callable[[Order, int, int, Sequence[str]], None]] = {
    "issue": Order.issue, "atomic": Order.issue_atomic, "tags": Order.tag_status, "stalls": Order.stall_status, "ack": Order.acknowledge,
    "atomicread": Order.atomic_status, "put": Order.put_value, "take": Order.take_value, "signal": Order.pass_signal, "ended": Order.end_processor,
    "awaited": Order.await_processor,
}
