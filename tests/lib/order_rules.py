"""Which pairs of a run's steps docs/reference/order.md orders, directly and by chains, and which of them race: told once more, beside
tools/celltools/order/graph.py, each rule as a look at one pair of places. Nothing here is fast: every rule looks at every pair of steps of the kinds that it speaks of.
"""
import re
from typing import Callable, Dict, Iterator, List, Optional, Sequence, Set, Tuple

from celltools.run.effects import Command, Trace, has_group, mailbox, shared_bytes

INBOX_PLACES, OTHER_PLACES = 4, 1

Pair = Tuple[int, int]  # of places, the earlier first


def trace_of_lines(lines: Sequence[str]) -> Trace:
    """The trace of a run of which all steps will be looked at many times."""
    trace = Trace(lines)
    trace.steps = list(trace.steps)
    return trace


def precedes(first: Command, second: Command) -> bool:
    """Whether a command goes before a later one of its processor, by their tags and marks."""
    same_tag = first.tag == second.tag
    return same_tag and second.mark in ("fence", "barrier") or same_tag and first.mark == "barrier" or "barrier" in (first.kind, second.kind)


def goes_before(t: Trace, spe: int, c: int, d: int) -> bool:
    """Whether command c of a processor goes before its command d, by the flow controller's rules."""
    first, second = t.commands.get((spe, c)), t.commands.get((spe, d))
    return first is not None and second is not None and c < d and precedes(first, second)


def finished_flagged(t: Trace, spe: int, c: int, place: int) -> List[int]:
    """The numbers of the flagged elements of a list of which all pieces are done before the place."""
    done = []
    for number, at in enumerate(t.elements.get((spe, c), [])):
        element = t.steps[at].element_read() if at < place else None
        if element and element.flagged:
            line = re.compile(rf"p {spe} {c} {number} ")
            pieces = sum(bool(line.match(text)) for text in t.lines[at:place])
            if pieces == element.parts:
                done.append(number)
    return done


def resumed_by(t: Trace, place: int) -> List[int]:
    """The commands that the acknowledgement at the place lets go on."""
    ack = t.steps[place]
    return [c for (spe, c), command in t.commands.items()
            if spe == ack.spe and command.tag == ack.number("ack") and is_stalled(t, spe, c, place)]


def is_stalled(t: Trace, spe: int, c: int, place: int) -> bool:
    """Whether the list waits for an acknowledgement before the place: its last element read is flagged and finished, and since then none came."""
    read = [at for at in t.elements.get((spe, c), []) if at < place]
    done = finished_flagged(t, spe, c, place)
    if not read or len(read) - 1 not in done:
        return False
    since = next(k for k in range(place + 1) if len(read) - 1 in finished_flagged(t, spe, c, k))
    tag = t.commands[spe, c].tag
    return not any(s.is_instruction_of(spe, "ack") and s.number("ack") == tag for s in t.steps[since:place])


def nth(t: Trace, place: int, which: str) -> int:
    """How many values went into, or out of, the mailbox of the step at the place before it."""
    box = mailbox(t.steps[place])
    return sum(mailbox(t.steps[k]) == box for k in t.with_field(which, 0, place))


# ---- the rules: whether the step at place i of a trace is ordered directly before that at the later place j

def program(t: Trace, i: int, j: int) -> bool:
    return t.steps[j].kind == "instruction" and t.steps[i].is_instruction_of(t.steps[j].spe)


def script(t: Trace, i: int, j: int) -> bool:
    return t.steps[i].kind == t.steps[j].kind == "host"


def issued(t: Trace, i: int, j: int) -> bool:
    command = t.steps[i].issued()
    return command is not None and t.steps[j].command_key() == (command.spe, command.number)


def atomic_issued(t: Trace, i: int, j: int) -> bool:
    spe = t.steps[j].spe
    return (t.steps[j].kind == "atomic" and t.steps[i].is_instruction_of(spe, "atomic")
            and not any(line.startswith(f"a {spe} ") for line in t.lines[i:j]))


def next_atomic(t: Trace, i: int, j: int) -> bool:
    return t.steps[i].kind == "atomic" and t.steps[j].is_instruction_of(t.steps[i].spe, "atomic")


def atomic_seen(t: Trace, i: int, j: int) -> bool:
    return t.steps[i].kind == "atomic" and t.steps[j].is_instruction_of(t.steps[i].spe, "atomicread")


def line(t: Trace, i: int, j: int) -> bool:
    return bool(t.whole_lines(i) & t.whole_lines(j))


def passed(t: Trace, i: int, j: int) -> bool:
    return ("put" in t.steps[i].told and "take" in t.steps[j].told and mailbox(t.steps[i]) == mailbox(t.steps[j])
            and nth(t, i, "put") == nth(t, j, "take"))


def place_free(t: Trace, i: int, j: int) -> bool:
    if "take" not in t.steps[i].told or "put" not in t.steps[j].told or mailbox(t.steps[i]) != mailbox(t.steps[j]):
        return False
    places = INBOX_PLACES if mailbox(t.steps[j])[1] == "in" else OTHER_PLACES
    return nth(t, i, "take") + places == nth(t, j, "put")


def signalled(t: Trace, i: int, j: int) -> bool:
    return "signal" in t.steps[i].told and t.steps[i].told["signal"] == t.steps[j].told.get("signal")


def finished(t: Trace, i: int, j: int) -> bool:
    return "ended" in t.steps[i].told and "awaited" in t.steps[j].told and t.steps[i].spe == t.steps[j].number("awaited")


def queue(t: Trace, i: int, j: int) -> bool:
    c, d = t.steps[i].command_key(), t.steps[j].command_key()
    return c is not None and d is not None and c[0] == d[0] and goes_before(t, c[0], c[1], d[1])


def element_piece(t: Trace, i: int, j: int) -> bool:
    return t.steps[i].kind == "element" and t.steps[j].kind == "piece" and t.element_of(i) == t.element_of(j)


def next_element(t: Trace, i: int, j: int) -> bool:
    earlier, later = t.element_of(i), t.element_of(j)
    if t.steps[j].kind != "element" or earlier is None:
        return False
    p, c, n = earlier
    return (p, c, n + 1) == later


def stall_seen(t: Trace, i: int, j: int) -> bool:
    element = t.element_of(i)
    if element is None or not t.steps[j].is_instruction_of(element[0], "stalls"):
        return False
    spe, c, number = element
    return has_group(t.steps[j].number("stalls") or 0, t.commands[spe, c].tag) and number in finished_flagged(t, spe, c, j)


def resumed(t: Trace, i: int, j: int) -> bool:
    d = t.steps[j].command_key()
    return "ack" in t.steps[i].told and d is not None and d[0] == t.steps[i].spe and d[1] in resumed_by(t, i)


def resumed_earlier(t: Trace, i: int, j: int) -> bool:
    d = t.steps[j].command_key()
    return "ack" in t.steps[i].told and d is not None and d[0] == t.steps[i].spe and any(goes_before(t, d[0], c, d[1]) for c in resumed_by(t, i))


def tag_seen(t: Trace, i: int, j: int) -> bool:
    c = t.steps[i].command_key()
    if c is None or not t.steps[j].is_instruction_of(c[0], "tags"):
        return False
    groups, fixed_at = map(int, t.steps[j].told["tags"])
    return has_group(groups, t.commands[c].tag) and c[1] < fixed_at


Rule = Callable[[Trace, int, int], bool]
RULES: Dict[str, Rule] = {
    "Program": program, "Script": script, "Issued": issued, "AtomicIssued": atomic_issued, "NextAtomic": next_atomic, "AtomicSeen": atomic_seen,
    "Line": line, "Passed": passed, "PlaceFree": place_free, "Signalled": signalled, "Finished": finished, "Queue": queue, "ElementPiece": element_piece,
    "NextElement": next_element, "StallSeen": stall_seen, "Resumed": resumed, "ResumedEarlier": resumed_earlier, "TagSeen": tag_seen,
}

# What the first and the second of two steps have, at least, that a rule orders: it isn't asked about other pairs.
OF_COMMAND, OF_LINE = "a command", "a line"
INSTRUCTION, PIECE, ELEMENT, ATOMIC, HOST = (f"a step: {kind}" for kind in ("instruction", "piece", "element", "atomic", "host"))
SIGNS: Dict[str, Tuple[str, str]] = {
    "Program": (INSTRUCTION, INSTRUCTION), "Script": (HOST, HOST), "Issued": ("issue", OF_COMMAND), "AtomicIssued": ("atomic", ATOMIC),
    "NextAtomic": (ATOMIC, "atomic"), "AtomicSeen": (ATOMIC, "atomicread"), "Line": (OF_LINE, OF_LINE), "Passed": ("put", "take"), "PlaceFree": ("take", "put"),
    "Signalled": ("signal", "signal"), "Finished": ("ended", "awaited"), "Queue": (OF_COMMAND, OF_COMMAND), "ElementPiece": (ELEMENT, PIECE),
    "NextElement": (OF_COMMAND, ELEMENT), "StallSeen": (OF_COMMAND, "stalls"), "Resumed": ("ack", OF_COMMAND), "ResumedEarlier": ("ack", OF_COMMAND),
    "TagSeen": (OF_COMMAND, "tags"),
}


def signs_of(trace: Trace, place: int) -> Set[str]:
    """What a step has of these."""
    step = trace.steps[place]
    return {f"a step: {step.kind}", *step.told, *[OF_COMMAND] * (step.command_key() is not None), *[OF_LINE] * bool(trace.whole_lines(place))}


# ---- what follows from them

def edges(trace: Trace) -> Dict[Pair, Set[str]]:
    """Of each pair of places that a rule orders directly, the names of these rules."""
    found: Dict[Pair, Set[str]] = {}
    places: Dict[str, List[int]] = {}  # with a sign, below j
    for j in range(len(trace.steps)):
        signs = signs_of(trace, j)
        for name, rule in RULES.items():
            first, second = SIGNS[name]
            for i in places.get(first, ()) if second in signs else ():
                if rule(trace, i, j):
                    found.setdefault((i, j), set()).add(name)
        for sign in signs:
            places.setdefault(sign, []).append(j)
    return found


def closure(count: int, found: Dict[Pair, Set[str]], without: Optional[str] = None) -> List[int]:
    """Of each place the set of the places that are ordered before it, as the bits of a number; where `without` is a rule's name, without that rule."""
    before: List[int] = []
    for j in range(count):
        bits = 0
        for i in range(j):
            if found.get((i, j), set()) - {without}:
                bits |= 1 << i | before[i]
        before.append(bits)
    return before


def least_race(trace: Trace, before: Sequence[int]) -> Optional[Pair]:
    """The race of a trace with the least second place, and with it the least first; None where there is none."""
    for j, later in enumerate(trace.steps):
        for i in places_in(~before[j] & (1 << j) - 1):
            if shared_bytes(trace.steps[i], later):
                return i, j
    return None


def places_in(bits: int) -> Iterator[int]:
    """The places of a set that is the bits of a number, from the least on."""
    while bits:
        least = bits & -bits
        yield least.bit_length() - 1
        bits ^= least


def order_differences(before: Sequence[int], found: Dict[Pair, Set[str]]) -> List[str]:
    """Where the orderer and the rules, by the pairs that they order directly, differ."""
    wanted = closure(len(before), found)
    return [f"before step {j}: by the rules {bits:b}, by the orderer {said:b}" for j, (bits, said) in enumerate(zip(wanted, before)) if bits != said]
