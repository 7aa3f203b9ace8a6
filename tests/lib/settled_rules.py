"""Which runs are settled, and which order of a run's steps a number names: told once more in plain Python, beside the proved program.

A run is settled where no processor sees how far its flow controller has come, except by what orders what it sees. Seven clauses say so, under the names that
they have in reorder_laws's `Settled`, each of them here as a look at the places of a trace. `before` has of each place the places that are ordered before it, as
the bits of a number. Nothing here is fast: every clause looks at every place.
"""
import bisect
import collections
from typing import Callable, Collection, DefaultDict, Dict, List, Optional, Sequence

from celltools.run.effects import MEMORY_LINE, Command, Key, Step, Trace
from lib.order_rules import is_stalled

TAG_UPDATE, TAG_STATUS, STALL_STATUS, STALL_ACK, ATOMIC_STATUS = 23, 24, 25, 26, 27
SETTLED_CHANNELS = {12, *range(16, 31)}
LISTS = ("putl", "getl")
OF_ONE_PIECE = ("putqlluc", "sndsig")
ELEMENT_BYTES = 8
MOST_OPEN = 15
AT_ONCE, OF_ANY_GROUP = 0, 1


# ---- what an instruction does

def reads(step: Step, channel: int) -> bool:
    return step.kind == "instruction" and step.number("rdch") == channel


def writes(step: Step, channel: int) -> bool:
    return step.kind == "instruction" and step.number("wrch") == channel


def queues(step: Step) -> bool:
    return step.issued() is not None


def issues_atomic(step: Step) -> bool:
    return step.kind == "instruction" and "atomic" in step.told


def places_of(t: Trace, spe: int, test: Callable[[Step], bool]) -> List[int]:
    """The places of a processor's own steps that pass a test."""
    return [place for place, step in enumerate(t.steps) if step.spe == spe and test(step)]


def processors(t: Trace) -> List[int]:
    return sorted({step.spe for step in t.steps if step.spe is not None})


# ---- how far a command is

def parts_of(command: Command) -> int:
    """How many pieces a command that is no list has: one for each line of main memory that it touches."""
    if command.kind in OF_ONE_PIECE:
        return 1
    if command.kind == "barrier" or not command.size:
        return 0
    return (command.ea + command.size - 1) // MEMORY_LINE - command.ea // MEMORY_LINE + 1


def steps_of(t: Trace, key: Key, place: int) -> List[Step]:
    """The steps of a command before a place."""
    return [step for step in t.steps[:place] if step.command_key() == key]


def are_elements_finished(t: Trace, key: Key, place: int) -> bool:
    """Whether all elements of a list are read and all their pieces are done before a place."""
    read = [t.steps[at].element_read() for at in t.elements.get(key, []) if at < place]
    done = [step.element for step in steps_of(t, key, place) if step.kind == "piece"]
    many = t.commands[key].size // ELEMENT_BYTES
    return len(read) == many and all(element and done.count(element.number) == element.parts for element in read)


def is_complete(t: Trace, key: Key, place: int) -> bool:
    """Whether a command is complete before the step at a place is made."""
    command = t.commands[key]
    if command.kind in LISTS and command.size:
        return are_elements_finished(t, key, place) and not is_stalled(t, *key, place)
    kinds = [step.kind for step in steps_of(t, key, place)]
    return kinds.count("piece") == parts_of(command) if parts_of(command) else "retirement" in kinds


def is_closed(t: Trace, before: Sequence[int], key: Key, place: int) -> bool:
    """Whether a command is complete before the step at a place is made, and all of its steps are ordered before that."""
    steps = [at for at, step in enumerate(t.steps) if step.command_key() == key]
    return is_complete(t, key, place) and all(before[place] >> at & 1 for at in steps)


def open_commands(t: Trace, before: Sequence[int], spe: int, place: int, kinds: Optional[Collection[str]] = None) -> List[Key]:
    """The commands, of these kinds or of any, that a processor issued before a place and that aren't closed there."""
    return [key for key, at in t.issues.items()
            if key[0] == spe and at < place and (kinds is None or t.commands[key].kind in kinds) and not is_closed(t, before, key, place)]


# ---- the clauses

def counts_nothing(t: Trace, before: Sequence[int]) -> bool:
    """No instruction reads a count."""
    return not any(step.kind == "instruction" and "rchcnt" in step.told for step in t.steps)


def waits_for_tags(t: Trace, before: Sequence[int]) -> bool:
    """Each tag request is one of all groups, and after it the processor queues no command until it has read the status."""
    return all(waits_behind(t, spe, place) for spe in processors(t) for place in places_of(t, spe, lambda step: writes(step, TAG_UPDATE)))


def waits_behind(t: Trace, spe: int, request: int) -> bool:
    read = [place for place in places_of(t, spe, lambda step: reads(step, TAG_STATUS)) if place > request]
    queued = [place for place in places_of(t, spe, queues) if place > request]
    is_of_all = t.steps[request].number("wrch", 1) not in (AT_ONCE, OF_ANY_GROUP)
    return is_of_all and all(any(place < later for place in read) for later in queued)


def has_room(t: Trace, before: Sequence[int]) -> bool:
    """Wherever a command is queued, at most fifteen earlier ones of the processor aren't closed."""
    return all(len(open_commands(t, before, step.processor, place)) <= MOST_OPEN for place, step in enumerate(t.steps) if queues(step))


def handles_stalls(t: Trace, before: Sequence[int]) -> bool:
    """The reads of the stall status and the acknowledgements take turns, a read first, and each read is of one stall, which is then acknowledged."""
    for spe in processors(t):
        turns = places_of(t, spe, lambda step: reads(step, STALL_STATUS) or writes(step, STALL_ACK))
        if any(reads(t.steps[place], STALL_STATUS) != (number % 2 == 0) for number, place in enumerate(turns)):
            return False
        if not all(reads_one_stall(t, before, spe, place) for place in turns[::2]):
            return False
    return True


def reads_one_stall(t: Trace, before: Sequence[int], spe: int, place: int) -> bool:
    """Whether at a read of the stall status one list isn't closed, which is stalled, and whose tag comes next, before any other list is issued.

    No run breaks it by a list that isn't stalled alone. The read waits for a bit, which some list set when it stalled, behind the read before. Where no
    acknowledgement came since, that list is still stalled, so it isn't closed, and is the one. Where one came, it answers the read before, so the list stalled
    between these two; but there no list is issued, the one that isn't closed stands stalled, and the others are complete.
    """
    lists = open_commands(t, before, spe, place, LISTS)
    if len(lists) != 1 or not is_stalled(t, *lists[0], place):
        return False
    later = [at for at in places_of(t, spe, lambda step: writes(step, STALL_ACK)) if at > place]
    # where no acknowledgement comes, the rest of the run is before it
    end = later[0] if later else len(t.steps)
    is_its_tag = not later or t.steps[end].number("wrch", 1) == t.commands[lists[0]].tag
    return is_its_tag and not any(key[0] == spe and t.commands[key].kind in LISTS and place < at < end for key, at in t.issues.items())


def reads_each_atomic(t: Trace, before: Sequence[int]) -> bool:
    """Between two atomic commands that a processor issues it reads an atomic status."""
    for spe in processors(t):
        issues = places_of(t, spe, issues_atomic)
        read = places_of(t, spe, lambda step: reads(step, ATOMIC_STATUS))
        if not all(any(first < place < second for place in read) for first, second in zip(issues, issues[1:])):
            return False
    return True


def is_faulty(step: Step) -> bool:
    """Whether a step gives its processor a DMA fault: an element that isn't one, or a command that is neither queued nor takes the slot."""
    if step.kind == "element":
        return step.element_read() is None
    return writes(step, 21) and not queues(step) and not issues_atomic(step)


def has_no_fault(t: Trace, before: Sequence[int]) -> bool:
    """No processor has a DMA fault."""
    return not any(is_faulty(step) for step in t.steps)


def keeps_channels(t: Trace, before: Sequence[int]) -> bool:
    """Only some channels are read and written, no command sends a signal, and the host delivers none."""
    used = {step.number(way) for step in t.steps for way in ("rdch", "wrch") if way in step.told}
    sends = any(command.kind == "sndsig" for command in t.commands.values())
    return used <= SETTLED_CHANNELS and not sends and not any(step.kind == "host" and "signal" in step.told for step in t.steps)


CLAUSES: Dict[str, Callable[[Trace, Sequence[int]], bool]] = {
    "CountsNothing": counts_nothing, "WaitsForTags": waits_for_tags, "HasRoom": has_room, "HandlesStalls": handles_stalls,
    "ReadsEachAtomic": reads_each_atomic, "HasNoFault": has_no_fault, "KeepsChannels": keeps_channels,
}


def broken(t: Trace, before: Sequence[int]) -> List[str]:
    """The names of the clauses that a run breaks; it is settled where there are none."""
    return [name for name, holds in CLAUSES.items() if not holds(t, before)]


# ---- the order that a number names

def reordering(before: Sequence[int], n: int) -> List[int]:
    """The places of a run in the order of a number: of the steps before which nothing is left, by their places, each time the one at position n (i + 1)."""
    taken = 0
    free: List[int] = []
    order: List[int] = []
    waiting: DefaultDict[int, List[int]] = collections.defaultdict(list)  # for the latest of the places that are left before them

    def put(place: int) -> None:
        left = before[place] & ~taken
        if left:
            waiting[left.bit_length() - 1].append(place)
        else:
            bisect.insort(free, place)

    for place in range(len(before)):
        put(place)
    for i in range(len(before)):
        place = free.pop(n * (i + 1) % len(free))
        order.append(place)
        taken |= 1 << place
        for other in waiting.pop(place, ()):
            put(other)
    return order
