"""Sequences of channel instructions: DMA commands, lists, atomic commands, signals and mailboxes. Each is a program that loads each value from the store,
writes or reads the channel, and keeps what it reads; `cell run` prints the bytes after it."""
import dataclasses
import itertools
import pathlib
import random
import re
import tempfile
from typing import Callable, Dict, Iterator, List, Sequence, Tuple, Union

from celltools.run.runs import Refused, asked, said_of

SPES = 16
# In the store: the program, its values, what it reads, and the bytes that commands move. Each processor has a window of main memory of its own.
VALUES, KEPT, WINDOW, LIST = 0x4000, 0x8000, 0x10000, 0x11000
BYTES, SPAN = 0x200, 0x1000  # bytes that are compared, and the distance of two windows of main memory
LINES = SPES * SPAN // 128
LSA, EAH, EAL, SIZE, TAG, COMMAND, MASK, UPDATE, STATUS, ATOMIC, SIGNAL = 16, 17, 18, 19, 20, 21, 22, 23, 24, 27, 3
ALL = 2  # of a write of UPDATE: wait for all groups
PUTS, GETS, PUT_LISTS, GET_LISTS = (0x20, 0x21, 0x22), (0x40, 0x41, 0x42), (0x24, 0x25, 0x26), (0x44, 0x45, 0x46)
GETLLAR, PUTLLC, PUTLLUC, PUTQLLUC, SNDSIG = 0xD0, 0xB4, 0xB0, 0xB8, 0xA0
LOAD, WRITE, READ, COUNT, STORE, STOP = 0x061 << 23, 0x10D << 21, 0x00D << 21, 0x00F << 21, 0x041 << 23, 0
SIZES = (16, 0, 1, 2, 4, 8, 32, 48, 128, 256, 0x1F0)
WRONG_SIZES = (3, 5, 6, 7, 12, 17, 24, 16400)
STATE = re.compile(r"spe \d+ (.*) pc 0x\w+ queued \d+")

Step = Tuple[str, int, int]  # `wrch`, `rdch` or `rchcnt`, the channel, and the value that is written
Bytes = Dict[int, bytes]


@dataclasses.dataclass
class Exchange:
    """The steps of one processor, and the bytes before them. Addresses of main memory count from its window."""
    steps: List[Step]
    store: bytes
    memory: bytes
    elements: bytes = b""


@dataclasses.dataclass
class Ended:
    status: str
    read: List[int]
    store: bytes
    memory: bytes


def command(opcode: int, address: int, effective: int, size: int, tag: int) -> List[Step]:
    """The writes that issue a command."""
    return [("wrch", LSA, address), ("wrch", EAL, effective), ("wrch", SIZE, size), ("wrch", TAG, tag), ("wrch", COMMAND, opcode)]


def waited(tag: int) -> List[Step]:
    return [("wrch", MASK, 1 << tag & 0xFFFFFFFF), ("wrch", UPDATE, ALL), ("rdch", STATUS, 0)]


# ---- what is chosen

def transfer(chooser: random.Random, place: int, opcodes: Sequence[int]) -> List[Step]:
    """A PUT or GET: each size first, then random ones, of which some break a rule."""
    size = SIZES[place % len(SIZES)] if place < 3 * len(SIZES) or chooser.getrandbits(2) else chooser.choice(WRONG_SIZES)
    tag = place % 32 if place < 64 or chooser.getrandbits(4) else 32
    offset = chooser.randrange(0, BYTES - 16, size if size in (1, 2, 4, 8) else 16)
    effective = chooser.randrange(0, BYTES // 16 - 1) * 16 + offset % 16
    if place >= 64 and not chooser.getrandbits(3):
        effective += chooser.choice((1, 4, 8))
    room = BYTES - max(offset, effective)
    size = min(size, room - room % 16) if 16 <= size <= BYTES else size
    return [*command(opcodes[place % len(opcodes)], WINDOW + offset, effective, size, tag), *(waited(tag) if tag < 32 else [])]


def of_list(chooser: random.Random, place: int, opcodes: Sequence[int]) -> Tuple[List[Step], List[Tuple[int, int]]]:
    """A list of one to four elements, each of its own place of main memory."""
    count = place % 4 + 1
    elements = [(chooser.choice((16, 32, 64, 128, 0)), 128 * element % BYTES) for element in range(count)]
    tag = place % 32
    return [*command(opcodes[place % len(opcodes)], WINDOW, LIST, 8 * count, tag), *waited(tag)], elements


def atomic(chooser: random.Random, place: int) -> List[Step]:
    """Some atomic commands on lines: with a reservation and without, and PUTQLLUC, which has a tag."""
    steps: List[Step] = []
    for _ in range(place % 5 + 1):
        opcode = chooser.choice((GETLLAR, GETLLAR, PUTLLC, PUTLLUC, PUTQLLUC))
        steps += command(opcode, WINDOW + 128 * chooser.randrange(4), 128 * chooser.randrange(2), 0, place % 32)
        steps += waited(place % 32) if opcode == PUTQLLUC else [("rdch", ATOMIC, 0)]
    return steps


def signalled(chooser: random.Random, place: int, spe: int) -> List[Step]:
    """SNDSIG to an own register, which is read."""
    register, offset = place % 2, 4 * chooser.randrange(BYTES // 4)
    return [*command(SNDSIG, WINDOW + offset, 2 * spe + register, 4, place % 32), *waited(place % 32), ("rdch", SIGNAL + register, 0)]


def counted(chooser: random.Random, place: int) -> List[Step]:
    """Counts and masks that no other processor changes."""
    steps: List[Step] = []
    for _ in range(place % 6 + 1):
        channel = chooser.choice((11, 12, 28, 30, 1, MASK))
        if channel in (11, 12):
            steps += [("wrch", MASK if channel == 12 else 1, chooser.getrandbits(32) & (0xFFFFFFFF if channel == 12 else 0x3FF)), ("rdch", channel, 0)]
        elif channel in (28, 30) and ("wrch", channel) not in {step[:2] for step in steps}:
            steps += [("rchcnt", channel, 0), ("wrch", channel, chooser.getrandbits(32)), ("rchcnt", channel, 0)]
        else:
            steps.append(("rchcnt", channel, 0))
    return steps


KINDS: Dict[str, Callable[[random.Random, int, int], Union[List[Step], Tuple[List[Step], List[Tuple[int, int]]]]]] = {
    "put": lambda chooser, place, _: transfer(chooser, place, PUTS), "get": lambda chooser, place, _: transfer(chooser, place, GETS),
    "put_list": lambda chooser, place, _: of_list(chooser, place, PUT_LISTS), "get_list": lambda chooser, place, _: of_list(chooser, place, GET_LISTS),
    "atomic": lambda chooser, place, _: atomic(chooser, place), "signal": signalled, "channels": lambda chooser, place, _: counted(chooser, place),
}  # fmt: skip


def sequences(kind: str, count: int, seed: int) -> List[Exchange]:
    """The sequences of a kind; those of one machine are for processors 0 to 15 in turn."""
    chooser = random.Random(f"{kind} {seed}")
    found: List[Exchange] = []
    for place in range(count):
        chosen = KINDS[kind](chooser, place, place % SPES)
        steps, elements = chosen if isinstance(chosen, tuple) else (chosen, [])
        store, memory = (chooser.getrandbits(8 * BYTES).to_bytes(BYTES, "big") for _ in range(2))
        packed = b"".join(size.to_bytes(4, "big") + address.to_bytes(4, "big") for size, address in elements)
        found.append(Exchange(steps, store, memory, packed))
    return found


# ---- the machine

def placed(spe: int, sequence: Exchange) -> Iterator[str]:
    """The lines of a machine file for one sequence. Addresses of main memory are moved to the window of the processor."""
    base, code, values = spe * SPAN, bytearray(), bytearray()
    reads = 0
    for name, channel, value in sequence.steps:
        if name == "wrch":
            is_memory = channel == EAL and not is_of_store(sequence, value) and not is_signal(sequence)
            code += (LOAD | (VALUES + len(values) >> 2) << 7 | 2).to_bytes(4, "big") + (WRITE | channel << 7 | 2).to_bytes(4, "big")
            values += (value + base * is_memory).to_bytes(4, "big") + bytes(12)
        else:
            code += ((READ if name == "rdch" else COUNT) | channel << 7 | 3).to_bytes(4, "big") + (STORE | (KEPT + 16 * reads >> 2) << 7 | 3).to_bytes(4, "big")
            reads += 1
    elements = b"".join(sequence.elements[at:at + 4] + (int.from_bytes(sequence.elements[at + 4:at + 8], "big") + base).to_bytes(4, "big") for at in range(0, len(sequence.elements), 8))
    yield "spe"
    parts = [("bytes", 0, bytes(code) + STOP.to_bytes(4, "big")), ("bytes", VALUES, bytes(values)), ("bytes", WINDOW, sequence.store), ("bytes", LIST, elements), ("mem", base, sequence.memory)]
    yield from (f"{word} {at} {data.hex()}" for word, at, data in parts if data)
    yield f"show ls {spe} {KEPT} {max(16, 16 * reads)}"
    yield f"show ls {spe} {WINDOW} {BYTES}"
    yield f"show mem {base} {BYTES}"


def is_of_store(sequence: Exchange, value: int) -> bool:
    """Whether EAL is the place of a list in the store."""
    return bool(sequence.elements) and value == LIST


def is_signal(sequence: Exchange) -> bool:
    return ("wrch", COMMAND, SNDSIG) in sequence.steps


def run_sequences(found: Sequence[Exchange]) -> List[Ended]:
    return [ended for place in range(0, len(found), SPES) for ended in run_machine(found[place:place + SPES])]


def run_machine(found: Sequence[Exchange]) -> List[Ended]:
    lines = ["cell-machine 1", f"lines {LINES}", "budget 100000", *(line for spe, sequence in enumerate(found) for line in placed(spe, sequence))]
    with tempfile.TemporaryDirectory(prefix="cell-vectors-") as room:
        file = pathlib.Path(room, "machine")
        file.write_text("".join(f"{line}\n" for line in lines))
        done = asked("cell_cli", "run", file)
    if done.returncode:
        raise Refused(f"the machine of the sequences is refused: {said_of(done)}")
    output = done.stdout.splitlines()
    states = [match[1] for match in map(STATE.fullmatch, output) if match]
    shown = [bytes.fromhex(line.split()[-1]) for line in output if line.startswith(("ls ", "mem "))]
    return [ended_of(sequence, status, *shown[3 * place:3 * place + 3]) for place, (sequence, status) in enumerate(zip(found, states))]


def ended_of(sequence: Exchange, status: str, kept: bytes, store: bytes, memory: bytes) -> Ended:
    """What a processor read, and its bytes. A fault ends it before later reads."""
    reads = sum(name != "wrch" for name, _, _ in sequence.steps) if status.startswith("stopped") else 0
    return Ended(status, [int.from_bytes(kept[16 * place:16 * place + 4], "big") for place in range(reads)], store, memory)


def case_of(place: int, sequence: Exchange, ended: Ended) -> Dict[str, object]:
    """A vector: each step with the value that is written or was read."""
    reads = itertools.chain(ended.read, itertools.repeat(None))
    steps = [[name, channel, value if name == "wrch" else next(reads)] for name, channel, value in sequence.steps]
    before = {"spe": place % SPES, "ls": [[WINDOW, sequence.store.hex()]], "mem": [[0, sequence.memory.hex()]]}
    if sequence.elements:
        before["ls"] = [[WINDOW, sequence.store.hex()], [LIST, sequence.elements.hex()]]
    return {"before": before, "steps": steps, "after": {"status": ended.status, "ls": [[WINDOW, ended.store.hex()]], "mem": [[0, ended.memory.hex()]]}}
