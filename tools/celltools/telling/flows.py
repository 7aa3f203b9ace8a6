"""Says in words what the flow controllers, mailboxes and signal registers of a run hold, from the lines that run_trace prints of them."""
from typing import Iterable, Iterator, List, Mapping, Optional, Sequence, Tuple

from celltools.run.effects import Command
from celltools.source.channels import SIGNAL_REGISTERS, events_in
from celltools.source.names import NONE, Names
from celltools.telling.words import ATOMIC, BOXES, counted, name_of, request_of, signal_register, tags

Told = Mapping[str, Sequence[str]]  # the fields of a line by their names
STATUSES = {"0": "PUTLLC succeeded", "1": "PUTLLC failed: its reservation was lost", "2": "PUTLLUC", "4": "GETLLAR"}


def fields_of(line: str) -> Tuple[List[str], Told]:
    """The first field of a line of run_trace, and the others by their names."""
    first, *fields = (field.split() for field in line.split(" | "))
    return first, {name: words for name, *words in fields}


def flow_lines(told: Told, spe: int, names: Names) -> Iterator[str]:
    """A processor's MFC without its outstanding commands, in words."""
    lsa, high, low, size, tag = map(int, told["params"])
    yield f"next command: LSA {names.address(spe, lsa)}, EAH 0x{high:x}, EAL 0x{low:x}, size {size}, tag {tag}"
    yield f"tag mask: {groups_of(told['mask'][0])}"
    if "request" in told:
        how, groups = told["request"]
        yield f"pending tag status request: {request_of(int(how), int(groups))}"
    if "fixed" in told:
        groups, issued = told["fixed"]
        yield f"unread tag status: {groups_of(groups)}, taken after {counted(int(issued), 'command')} had been issued"
    if "stalls" in told:
        yield f"unread list stall status: {groups_of(told['stalls'][0])}"
    if "atomic" in told:
        kind, local, line = told["atomic"]
        yield f"outstanding atomic command: {ATOMIC[kind]} of {names.line(int(line))}, at {names.address(spe, int(local))} in the local store"
    if "status" in told:
        status = told["status"][0]
        yield f"unread atomic status: {status} ({STATUSES.get(status, 'unknown')})"
    if "reserved" in told:
        line, state = told["reserved"]
        yield f"reservation: {names.line(int(line))}, {'held' if state == 'held' else 'lost to a later store'}"
    for box in (box for box in BOXES if box in told):
        yield f"{BOXES[box].removeprefix('the ')}: {', '.join(f'0x{int(value):x}' for value in told[box])}"


def events_of(told: Told) -> Tuple[int, int]:
    """The event mask and the pending events of a processor."""
    mask, pending = told.get("events", ("0", "0"))
    return int(mask), int(pending)


def event_lines(told: Told) -> List[str]:
    """The same in words."""
    mask, pending = events_of(told)
    return [f"event mask: {events_in(mask)}", f"pending events: {events_in(pending)}"]


def signal_of(told: Told, register: int) -> Optional[int]:
    """What a signal register holds; None where it isn't ready."""
    value = told.get(f"sig{register}")
    return int(value[0]) if value else None


def signal_line(told: Told, register: int, is_or: bool) -> str:
    """The same in words."""
    value = signal_of(told, register)
    return f"signal register {register}: {'empty' if value is None else f'0x{value:x}'}, {'OR' if is_or else 'overwrite'} mode"


def used_lines(told: Told, in_or_mode: Sequence[int]) -> Iterator[str]:
    """The signal registers that are ready, each with its mode, and the events, if a mask has some: of all others a program sees nothing."""
    yield from (signal_line(told, register, register in in_or_mode) for register in SIGNAL_REGISTERS.values() if f"sig{register}" in told)
    yield from event_lines(told) if events_of(told)[0] else []


def groups_of(groups: str) -> str:
    return f"0x{int(groups):08x} ({tags(int(groups))})"


def command_line(words: Sequence[str], told: Told, names: Names) -> str:
    """An outstanding command in words."""
    spe, number, kind, mark, *rest = words
    command = Command(int(spe), int(number), kind, mark, *map(int, rest))
    return f"command {number}: {name_of(command)}, tag {command.tag}{moved(command, names)}{', '.join(['', *left_of(told, names)])}"


def moved(command: Command, names: Names) -> str:
    """From where to where a command moves bytes."""
    if command.kind == "barrier":
        return ""
    local = names.address(command.spe, command.ls)
    if command.kind in ("putl", "getl"):
        return f", list of {command.size} bytes at {names.address(command.spe, command.ea)} in the local store, data at {local}"
    if command.kind == "sndsig":
        return f", {command.size} bytes from {local} in the local store to {signal_register(command.ea)}"
    store, memory = f"{local} in the local store", f"{names.address(None, command.ea)} in main memory"
    source, target = (memory, store) if command.kind == "get" else (store, memory)
    return f", {command.size} bytes from {source} to {target}"


def left_of(told: Told, names: Names) -> Iterator[str]:
    """What is left of an outstanding command."""
    if "read" in told:
        yield "{} of {} list elements fetched".format(*told["read"])
    left, parts = told.get("left", ("0", "0"))
    if "element" in told:
        number, _, flagged, memory, size = told["element"]
        stalls = ", stall flag set" if flagged == "1" else ""
        yield f"{left} of {parts} pieces left of list element {number} ({size} bytes at {names.address(None, int(memory))} in main memory{stalls})"
    elif parts != "0":
        yield f"{left} of {parts} pieces left"
    if "stalled" in told:
        yield "stalled until its tag is acknowledged (wrch $ch26)"


def in_words(line: str, or_modes: Iterable[Tuple[int, int]], names: Names = NONE) -> List[str]:
    """A line of run_trace about a flow controller, a command or the host's script, in words; every other as it is. The registers of processors that are in
    OR mode are pairs of their numbers."""
    if not line.startswith(("flow ", "command ", "script ")):
        return [line]
    (name, *words), told = fields_of(line)
    if name == "flow":
        spe = int(words[0])
        in_or_mode = [register for other, register in or_modes if other == spe]
        return [f"MFC {spe}", *(f"    {said}" for said in [*flow_lines(told, spe, names), *used_lines(told, in_or_mode)])]
    return [f"    {command_line(words, told, names)}"] if name == "command" else []
