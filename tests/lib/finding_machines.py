"""Writes machines for tests/findings, and keeps what their files say: programs that poll, spin, lose values, read bytes that nothing wrote, halt, and have lines
that no run executes.

The sources have labels, comments, blank lines and directives at random, and two SPUs may load one source. `code` and `bytes` lines place words over some
instructions. The budgets are small, so that many runs spend them.
"""
import pathlib
import random
import subprocess
from typing import Callable, Dict, Iterator, List, NamedTuple, Optional, Sequence, Tuple

from celltools.common.repository import built
from lib.random_machines import GETLLAR, PUTLLC, PUTLLUC, Program, host_lines, load, mode_lines, write

CELL = built("cell_cli")
STORE_BYTES, MEMORY_LINE, WORD = 1 << 18, 128, 4
DATA_ALIGNMENT = 128  # of the data of a source, after its text
LINES = 16
BUDGETS = (120, 250, 400, 700, 1200)
NOP, BRANCH_TO_ITSELF, ISSUE = "40200000", "32000000", "21a00a8a"  # words: `nop`, `br` to its own address, `wrch $ch21,$10`
ISSUING = "wrch $ch21,$10"
PUT, GET, GETL, SNDSIG = 0x20, 0x40, 0x44, 0xa0


class Line(NamedTuple):
    """A line of a source that places words in the text: its number from 1, its address, how many bytes it places, its statement as it is written, and its
    instruction without labels, '' for a directive."""
    number: int
    at: int
    size: int
    statement: str
    instruction: str


class Placed(NamedTuple):
    """What a line of a machine file places in the store of an SPU: a source by its name, or bytes from an address on."""
    spe: int
    source: Optional[str]
    at: int
    data: bytes


class Machine(NamedTuple):
    """What the files of a machine say."""
    spes: int
    budget: int
    lines: int
    sources: Dict[str, List[Line]]  # by their names, in the order of the machine file
    images: Dict[str, List[Tuple[int, int]]]  # of each source, where its text and its data are: the first address and how many bytes
    code: Dict[str, List[Tuple[int, bytes]]]  # of each source, its bytes by their first address
    placed: List[Placed]
    memory: List[Tuple[int, bytes]]  # bytes of main memory at the start
    host: List[str]
    or_modes: List[Tuple[int, int]]


# ---- programs

class Finding(Program):
    """A program of one processor, which may poll, spin and lose values."""

    def __init__(self, rng: random.Random, spes: int) -> None:
        super().__init__(rng, spes)
        self.labels = 0

    def label(self) -> str:
        self.labels += 1
        return f"l{self.labels}"

    def until(self, lines: List[str], register: int) -> None:
        """Makes lines again until a register isn't zero, or for ever."""
        begin = self.label()
        self.lines += [f"{begin}:", *lines, f"brz ${register},{begin}" if self.rng.random() < 0.7 else f"br {begin}"]

    def poll_line(self) -> None:
        rng = self.rng
        self.lines += write(16, 0x3000) + write(18, MEMORY_LINE * rng.randrange(3))
        self.until(write(21, GETLLAR) + ["rdch $14,$ch27"] * (rng.random() < 0.9) + ["lqa $16,0x3000"], 16)

    def poll_transfer(self) -> None:
        rng = self.rng
        size = rng.choice([4, 16, 144])
        self.lines += write(16, 0x1000) + write(18, 16 * rng.randrange(40)) + write(19, size) + write(20, 1) + write(22, 2)
        self.until(write(21, GET) + write(23, 2) + ["rdch $13,$ch24", "lqa $16,0x1000"], 16)

    def poll_count(self) -> None:
        self.until([f"rchcnt $18,$ch{self.rng.choice([3, 4, 24, 25, 29])}"], 18)

    def count_down(self) -> None:
        begin = self.label()
        self.lines += [f"il $40,{self.rng.choice([2, 5, 20])}", f"{begin}:", "ai $40,$40,-1", f"brnz $40,{begin}"]

    def add_up(self) -> None:
        """Adds to a word in main memory, by PUTLLC, again and again: each time that it stores, memory changes."""
        begin = self.label()
        self.lines += write(16, 0x3000) + write(18, MEMORY_LINE * self.rng.randrange(3))
        self.lines += [f"{begin}:"] + write(21, GETLLAR) + ["rdch $14,$ch27", "lqa $16,0x3000", f"ai $16,$16,{self.rng.choice([0, 1])}", "stqa $16,0x3000"]
        self.lines += write(21, PUTLLC) + ["rdch $14,$ch27"] * (self.rng.random() < 0.6) + [f"br {begin}"]

    def store_again(self) -> None:
        """Stores the same line again and again."""
        self.lines += write(16, 0x3000) + write(18, MEMORY_LINE * self.rng.randrange(3))
        self.until(write(21, PUTLLUC) + ["rdch $14,$ch27"], 17)

    def signal_again(self) -> None:
        """Sends a signal again and again, and waits for each."""
        self.lines += write(16, 0x1000) + write(18, self.rng.randrange(2 * self.spes + 1)) + write(19, 4) + write(20, 2) + write(22, 4)
        self.until(write(21, SNDSIG) + write(23, 2) + ["rdch $13,$ch24"], 17)

    def tags_again(self) -> None:
        """Asks for a tag status, mostly without reading it."""
        for _ in range(self.rng.randrange(1, 4)):
            self.lines += write(22, self.rng.choice([1, 2, 7])) + write(23, self.rng.randrange(3)) + ["rdch $13,$ch24"] * (self.rng.random() < 0.3)

    def leave_out(self) -> None:
        """Branches over lines, or not."""
        behind = self.label()
        self.lines += [f"il $41,{self.rng.randrange(2)}", f"brnz $41,{behind}", "ai $42,$42,1", "ceqi $43,$42,3", f"{behind}:"]

    def halt(self) -> None:
        self.lines.append(self.rng.choice(["heqi $44,1", "heqi $14,1", "heqi $44,0"]))

    def kinds(self) -> List[Callable[[], None]]:
        """What a program is made of."""
        usual = [self.transfer] * 2 + [self.listed] + [self.tags] * 2 + [self.atomic] * 4 + [self.queued_line] + [self.mail] + [self.signal] * 4 + [self.signalled] * 2
        own = [self.poll_line] * 2 + [self.poll_transfer, self.poll_count, self.count_down, self.store_again, self.add_up, self.signal_again, self.halt]
        return usual + own + [self.tags_again] * 3 + [self.leave_out] * 2 + [self.touch, self.events]

    def text(self) -> str:
        kinds = self.kinds()
        for _ in range(self.rng.randrange(3, 8)):
            self.rng.choice(kinds)()
        end = [self.rng.choice(["stop 1", "stop 1", "br end"])]
        return decorated(self.rng, [*self.lines, "end:", *end])


def decorated(rng: random.Random, lines: List[str]) -> str:
    """A source of labels and instructions, with blank lines, comments and directives at random places."""
    text, waiting = ["# a source of tests/findings", "\t.text"], ""
    for line in lines:
        if rng.random() < 0.08:
            text.append(rng.choice(["", "# a comment", "\t# another one, with: marks"]))
        if line.endswith(":") and rng.random() < 0.5 and not waiting:
            waiting = line
            continue
        comment = "  # " + line if rng.random() < 0.1 else ""
        text.append((f"{waiting}\t{line}" if waiting else line if line.endswith(":") else f"\t{line}") + comment)
        waiting = ""
    text += ["\t.long\t0x40200000, 1"] * (rng.random() < 0.4) + ["\t.data", "words:\t.long 1,2", "\tnop"] * (rng.random() < 0.3)
    return "".join(f"{line}\n" for line in text)


# ---- files

def placing_lines(text: str) -> Iterator[Tuple[bool, Line]]:
    """The lines of a source that place words: whether in the text, and the line, whose address counts from the start of its section."""
    at, in_text = {True: 0, False: 0}, True
    for number, line in enumerate(text.splitlines(), 1):
        statement = line.split("#")[0].strip()
        rest = statement
        while rest.split(" ")[0].split("\t")[0].endswith(":"):
            rest = rest[rest.index(":") + 1:].strip()
        if rest in (".text", ".data"):
            in_text = rest == ".text"
        elif rest:
            size = WORD * (rest.count(",") + 1) if rest.startswith(".") else WORD
            yield in_text, Line(number, at[in_text], size, statement, "" if rest.startswith(".") else rest)
            at[in_text] += size


def lines_of(text: str) -> List[Line]:
    """The lines of a source that place words in the text."""
    return [line for in_text, line in placing_lines(text) if in_text]


def image_of(text: str) -> List[Tuple[int, int]]:
    """Where the text and the data of a source are."""
    of_text, of_data = (sum(line.size for in_text, line in placing_lines(text) if in_text == wanted) for wanted in (True, False))
    return [(0, of_text), (-(-of_text // DATA_ALIGNMENT) * DATA_ALIGNMENT, of_data)]


def replacing(rng: random.Random, spe: int, lines: List[Line]) -> List[Tuple[str, int, str]]:
    """Words that a line of the machine file places over instructions of a source: its key, the address and the digits."""
    code = [line for line in lines if line.instruction]
    found = [("bytes", line.at, ISSUE) for line in code if line.instruction == ISSUING and rng.random() < 0.1]
    if rng.random() < 0.15:
        found.append(("code", rng.choice(code).at, rng.choice([NOP, BRANCH_TO_ITSELF])))
    return found


def memory_lines(rng: random.Random) -> List[Tuple[int, bytes]]:
    return [(MEMORY_LINE * rng.randrange(LINES) + 16 * rng.randrange(8), bytes([rng.randrange(256)] * 4)) for _ in range(rng.randrange(3))]


def assembled(folder: pathlib.Path, name: str) -> List[Tuple[int, bytes]]:
    """The bytes of a source, by the lines `code` and `bytes` of `cell asm`."""
    printed = subprocess.run([CELL, "asm", name], cwd=folder, capture_output=True, text=True, check=True).stdout
    return [(int(at, 16), bytes.fromhex(digits)) for key, at, *rest in map(str.split, printed.splitlines()) for digits in rest if key in ("code", "bytes")]


def random_machine(rng: random.Random, folder: pathlib.Path) -> Machine:
    """Writes a machine file, `machine.cell`, with its sources."""
    spes = rng.randrange(1, 5)
    machine = Machine(spes, rng.choice(BUDGETS), LINES, {}, {}, {}, [], memory_lines(rng), host_lines(rng, spes), [])
    programs = [Finding(rng, spes) for _ in range(spes)]
    texts = [program.text() for program in programs]
    of_spe = [rng.randrange(spe + 1) if rng.random() < 0.25 else spe for spe in range(spes)]
    file: List[str] = []
    for spe, own in enumerate(of_spe):
        name = f"{own}.s"
        (folder / name).write_text(texts[own])
        machine.sources.setdefault(name, lines_of(texts[own]))
        machine.images[name], machine.code[name] = image_of(texts[own]), assembled(folder, name)
        machine.placed.append(Placed(spe, name, 0, b""))
        file += ["spe", f"source {name}"]
        words = [("bytes", at, "".join(f"{(flag << 31) | size:08x}{ea:08x}" for flag, size, ea in elements)) for at, elements in programs[own].lists]
        for key, at, digits in words + replacing(rng, spe, machine.sources[name]):
            machine.placed.append(Placed(spe, None, at, bytes.fromhex(digits)))
            file.append(f"{key} {at} {digits}")
    modes = mode_lines(rng, spes)
    machine.or_modes.extend((int(line.split()[1]), int(line.split()[2])) for line in modes)
    write_file(folder, machine, file + modes)
    return machine


def write_file(folder: pathlib.Path, machine: Machine, lines: List[str]) -> None:
    """Writes a machine file, which shows all of main memory."""
    memory = [f"mem {at} {data.hex()}" for at, data in machine.memory]
    head = ["cell-machine 1", f"lines {machine.lines}", f"budget {machine.budget}"]
    (folder / "machine.cell").write_text("\n".join([*head, *lines, *memory, *machine.host, f"show mem 0 {machine.lines * MEMORY_LINE}"]) + "\n")


# ---- machines whose runs are known step by step

def alone(folder: pathlib.Path, budget: int, *programs: List[str], words: Sequence[Tuple[int, str]] = ()) -> Machine:
    """Writes a machine of these programs, without a host; `words` are addresses and digits of bytes in the store of the last SPU."""
    machine = Machine(len(programs), budget, 1, {}, {}, {}, [], [], [], [])
    file: List[str] = []
    for spe, lines in enumerate(programs):
        name, text = f"{spe}.s", "".join(f"{line}\n" if line.endswith(":") else f"\t{line}\n" for line in lines)
        (folder / name).write_text(text)
        machine.sources[name], machine.images[name], machine.code[name] = lines_of(text), image_of(text), assembled(folder, name)
        machine.placed.append(Placed(spe, name, 0, b""))
        file += ["spe", f"source {name}"]
    for at, digits in words:
        machine.placed.append(Placed(len(programs) - 1, None, at, bytes.fromhex(digits)))
        file.append(f"bytes {at} {digits}")
    write_file(folder, machine, file)
    return machine


def change_at(folder: pathlib.Path, place: int, budget: int) -> Machine:
    """One SPU that puts a value into a mailbox in the step at a place, and then spins."""
    return alone(folder, budget, ["nop"] * place + ["wrch $ch28,$3", "end:", "br end"])


def no_change(folder: pathlib.Path) -> Machine:
    return alone(folder, 100, ["end:", "nop", "br end"])


def long_loop(folder: pathlib.Path) -> Machine:
    """A loop of 1,600 instructions, of which the last 1,000 are looked at."""
    return alone(folder, 4000, ["begin:"] + ["nop"] * 1599 + ["br begin"])


def waits_beside(folder: pathlib.Path) -> Machine:
    """An SPU that waits from its first instruction on, beside one that spins."""
    return alone(folder, 100, ["rdch $3,$ch29", "stop 1"], ["end:", "br end"])


def many_spin(folder: pathlib.Path) -> Machine:
    """Six SPUs that spin, of which a report shows four."""
    return alone(folder, 600, *[["il $3,1"] + ["nop"] * spe + ["end:", "br end"] for spe in range(6)])


def store_then_spin(folder: pathlib.Path) -> Machine:
    """SPU 0 stores a line, and SPU 1 polls it for ever."""
    stores = load(3, 1) + ["stqa $3,0x3000"] + write(16, 0x3000) + write(18, 0) + write(21, PUTLLUC) + ["rdch $14,$ch27", "stop 1"]
    polls = write(16, 0x3000) + write(18, 0) + ["begin:"] + write(21, GETLLAR) + ["rdch $14,$ch27", "br begin"]
    return alone(folder, 1000, stores, polls)


def command(opcode: int, lsa: int, ea: int, size: int) -> List[str]:
    """The lines that issue a command with tag 0."""
    return write(16, lsa) + write(18, ea) + write(19, size) + write(20, 0) + write(21, opcode)


def long_list(folder: pathlib.Path) -> Machine:
    """A list of two elements, whose size is that of four."""
    return alone(folder, 100, command(GETL, 0x1000, 0x2000, 32) + ["stop 1"], words=[(0x2000, "00000010000000000000001000000010")])


def unwritten_loads(folder: pathlib.Path) -> Machine:
    """Loads of quadwords of which one byte is placed, none, none but after another load, and none but after a store; then one of data, and one just below them."""
    loads = ["lqa $3,0x1000", "lqa $3,0x1010", "lqa $4,0x1010", "stqa $3,0x1020", "lqa $3,0x1020", "lqa $3,128", "lqa $3,112"]
    return alone(folder, 100, loads + ["stop 1", ".data", ".long 1"], words=[(0x100f, "01")])


def unwritten_transfers(folder: pathlib.Path) -> Machine:
    """A PUT of bytes of which some are placed, the same once more, a signal, a line of a PUTLLUC, and a PUT of what a GET brought."""
    waits = write(22, 1) + write(23, 2) + ["rdch $13,$ch24"]
    puts = (command(PUT, 0x1000, 0, 32) + waits) * 2 + command(SNDSIG, 0x1100, 0, 4) + waits + command(PUTLLUC, 0x3000, 0, 128) + ["rdch $14,$ch27"]
    return alone(folder, 400, puts + command(GET, 0x1200, 0, 16) + waits + command(PUT, 0x1200, 16, 16) + waits + ["stop 1"], words=[(0x1000, "0102030405")])


KNOWN: Dict[str, Callable[[pathlib.Path], Machine]] = {
    "a change just below three quarters": lambda folder: change_at(folder, 74, 100),
    "a change at three quarters": lambda folder: change_at(folder, 75, 100),
    "a change just below three quarters of an odd budget": lambda folder: change_at(folder, 75, 101),
    "a change above three quarters of an odd budget": lambda folder: change_at(folder, 76, 101),
    "a change as the last step": lambda folder: change_at(folder, 99, 100),
    "no change": no_change, "a long loop": long_loop, "an SPU that waits": waits_beside, "many that spin": many_spin, "a stored line that is polled": store_then_spin,
    "a list that is too long": long_list, "loads of bytes that nothing wrote": unwritten_loads, "transfers of bytes that nothing wrote": unwritten_transfers,
}  # fmt: skip
