"""The cases of a row: edge values first, then random ones, the same for a seed. They say how a case begins; the machine says how it ends."""
import dataclasses
import itertools
import random
from typing import Dict, Iterator, List, Optional, Tuple

from celltools.vectors.rows import CHANNELS, MEMORY, REGISTERS, Row

STORE = 0x40000
QUADWORD = 16
EDGES = (0, 1, 0xFFFFFFFF, 0x7FFFFFFF, 0x80000000, 0x0000FFFF, 0x00008000, 0x7FFF8000, 0xFFFF0000, 0x80018001, 0x7F80FF01, 0x80FF7F00, 2, 7, 8, 15, 16, 31, 32, 33, 63,
         64, 127, 0xC0E08000)
EDGE_FIELDS = {"i7": (0, 1, 0x7F, 0x40, 0x3F, 7, 8, 15, 16, 31, 32), "i10": (0, 1, 0x3FF, 0x200, 0x1FF, 0x80, 0x7F, 0xFF), "i16": (0, 1, 0xFFFF, 0x8000, 0x7FFF, 0xFF, 0xFF00),
               "i18": (0, 1, 0x3FFFF, 0x20000, 0x1FFFF, 0x8000), "code": (0, 1, 0x3FFF, 0x2000, 0x1234)}
PLAIN = {"rt": 2, "ra": 3, "rb": 4, "rc": 5}  # registers of cases that aren't random
OTHER = 6  # a register that no field names
DATA = 0x20000  # where the quadwords are from which the registers of a case are loaded
PLACES = (0x100, 0x3FFFC, 0x40, 0x1FFFC, 0x3FF00)  # of an instruction alone in its program
KNOWN_CHANNELS = (0, 1, 2, 3, 4, 11, 12, 16, 17, 18, 19, 20, 22, 23, 24, 25, 26, 27, 28, 29, 30)
COMMAND = 21  # the channel that issues commands, which have vectors of their own
NEAR = 0x80  # bytes around an instruction that belong to its program


@dataclasses.dataclass
class Case:
    """What a processor has before an instruction: registers and quadwords of the store by number and address, values in its inbound mailbox, and the PC."""
    word: int
    registers: Dict[int, bytes]
    pc: int = 0
    store: Dict[int, bytes] = dataclasses.field(default_factory=dict)
    mailbox: List[int] = dataclasses.field(default_factory=list)


class Chooser:
    """Chooses the values of a row's cases."""

    def __init__(self, row: Row, seed: int) -> None:
        self.row = row
        self.random = random.Random(f"{row.name} {seed}")
        self.fields = [name for name in row.used if name not in REGISTERS and name != "channel"]
        self.registers = [name for name in row.used if name in REGISTERS]

    def quadword(self, word: Optional[int] = None) -> bytes:
        """The same word four times; or random words, of which some are edges."""
        if word is not None:
            return word.to_bytes(4, "big") * 4
        words = (self.random.choice(EDGES) if self.random.getrandbits(1) else self.random.getrandbits(32) for _ in range(4))
        return b"".join(it.to_bytes(4, "big") for it in words)

    def edges(self) -> Iterator[Tuple[Dict[str, int], Dict[str, bytes]]]:
        """All combinations of edge values: those of a source and of the last field or source; RT and a third source turn with them."""
        sources = [name for name in self.registers if name != "rt"][:2] or self.registers
        choices = [EDGES for _ in sources] + [EDGE_FIELDS[name] for name in self.fields]
        for place, chosen in enumerate(itertools.product(*choices)):
            values = dict(zip([*sources, *self.fields], chosen))
            turns = {name: EDGES[(7 * place + place // len(EDGES) + at) % len(EDGES)] for at, name in enumerate(self.registers)}
            words = {name: self.quadword(values.get(name, turns[name])) for name in self.registers}
            yield {**PLAIN, **{name: values[name] for name in self.fields}}, words

    def drawn(self) -> Tuple[Dict[str, int], Dict[str, bytes]]:
        """Random fields and values. Some cases have one register in all fields."""
        names = self.random.sample(range(128), len(PLAIN)) if self.random.getrandbits(3) else [self.random.getrandbits(7)] * len(PLAIN)
        fields = {name: self.random.getrandbits(self.row.width(name)) for name in self.fields}
        return {**dict(zip(PLAIN, names)), **fields}, {name: self.quadword() for name in self.registers}

    def cases(self, count: int) -> Iterator[Case]:
        """The first cases: half of them edges at most, and all edges if they are few."""
        edges = list(self.edges())
        step = max(1, len(edges) // max(1, count // 2))
        chosen: List[Tuple[Dict[str, int], Dict[str, bytes]]] = edges[::step] if self.row.name not in CHANNELS else []
        for place in itertools.count():
            fields, words = chosen[place] if place < len(chosen) else self.drawn()
            case = self.case(place, fields, words)
            if case is not None:
                yield case

    def case(self, place: int, fields: Dict[str, int], words: Dict[str, bytes]) -> Optional[Case]:
        """A case; None if it can't be placed. A register that stands in two fields has the value of the last one."""
        if self.row.name in CHANNELS:
            fields = {**fields, "channel": self.channel(place)}
        registers = {fields[name]: words[name] for name in self.registers}
        other = next(number for number in range(OTHER, 128) if number not in registers)
        case = Case(self.row.word(fields), {**registers, other: self.quadword()})
        if self.row.is_straight:
            return case
        case.pc = PLACES[place % len(PLACES)] if place < 4 * len(PLACES) else 4 * self.random.randrange(NEAR // 4, STORE // 4)
        if self.row.name in CHANNELS and self.random.getrandbits(1):
            case.mailbox = [self.random.getrandbits(32) for _ in range(self.random.randint(1, 4))]
        return None if is_near(case.pc, DATA) or self.row.name in MEMORY and not self.has_store(case, fields) else case

    def channel(self, place: int) -> int:
        """All channels first, and then mostly those that are there."""
        chosen = place if place < 128 else self.random.choice(KNOWN_CHANNELS) if self.random.getrandbits(2) else self.random.getrandbits(7)
        return 0 if chosen == COMMAND and self.row.name == "wrch" else chosen

    def has_store(self, case: Case, fields: Dict[str, int]) -> bool:
        """Places a quadword at the address that the instruction reads or writes, and one next to it; returns whether the program leaves room there."""
        at = address_of(self.row.name, fields, case) & (STORE - QUADWORD)
        if is_near(at, case.pc) or is_near(at, DATA):
            return False
        case.store = {place % STORE: self.quadword() for place in (at, at ^ QUADWORD)}
        return True


def is_near(one: int, other: int) -> bool:
    distance = (one - other) % STORE
    return distance < NEAR or STORE - distance < NEAR


def address_of(name: str, fields: Dict[str, int], case: Case) -> int:
    """The address of a load or store, before its mask, so that a case has bytes there."""
    first = {field: int.from_bytes(case.registers[fields[field]][:4], "big") for field in ("ra", "rb") if fields[field] in case.registers}
    form = name[-1]
    if form == "d":
        return first["ra"] + QUADWORD * ((fields["i10"] & 0x3FF ^ 0x200) - 0x200)  # the immediate is signed
    if form == "x":
        return first["ra"] + first["rb"]
    return 4 * fields["i16"] + (case.pc if form == "r" else 0)
