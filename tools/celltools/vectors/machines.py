"""Runs cases on the proved machine: a program loads the registers of a case from placed quadwords and executes its instruction, and `cell debug` prints the
state after it. Cases of one program follow one another, if the row lets them; up to fifteen programs are in one machine."""
import dataclasses
import pathlib
import re
import tempfile
from typing import Dict, Iterator, List, Sequence

from celltools.run.runs import Refused, asked, said_of
from celltools.vectors.cases import DATA, QUADWORD, STORE, Case

LOAD = 0x061 << 23  # lqa
SPES, SPONGE = 15, "bytes 0 32000000"  # `br` to itself: it takes the turns of a processor that waits
MOST_BYTES = 4096  # of a line
STATE = re.compile(r"spe (\d+) (.*) pc 0x(\w+) queued (\d+)")


@dataclasses.dataclass
class After:
    """A processor after the instruction of a case."""
    status: str
    pc: int
    registers: Dict[int, bytes]
    store: Dict[int, bytes]


class Program:
    """The cases of one processor, placed: those of a straight row from address 0 on, another one so that its instruction is at its PC."""

    def __init__(self, spe: int, cases: Sequence[Case], is_straight: bool) -> None:
        self.spe, self.cases = spe, cases
        code, self.data = bytearray(), bytearray()
        for case in cases:
            for number, value in case.registers.items():
                code += (LOAD | ((DATA + len(self.data)) >> 2 & 0xFFFF) << 7 | number).to_bytes(4, "big")
                self.data += value
            if is_straight:
                case.pc = len(code)
            code += case.word.to_bytes(4, "big")
        self.code = bytes(code)
        self.start = 0 if is_straight else cases[0].pc + 4 - len(code)

    def machine_lines(self) -> Iterator[str]:
        yield "spe"
        yield f"entry {self.start}"
        for at, data in (*((at, value) for case in self.cases for at, value in case.store.items()), (DATA, bytes(self.data)), (self.start, self.code)):
            for place in range(0, len(data), MOST_BYTES):
                yield f"bytes {at + place} {data[place:place + MOST_BYTES].hex()}"
        for value in (value for case in self.cases for value in case.mailbox):
            yield f"host send {self.spe} {value}"

    def script_lines(self) -> Iterator[str]:
        for case in self.cases:
            yield f"step x {self.spe} 0 {len(case.registers) + 1}"
            yield f"spe {self.spe}"
            yield from (f"reg {self.spe} {number}" for number in case.registers)
            yield from (f"ls {self.spe} {at} {QUADWORD}" for at in case.store)


def run_cases(cases: Sequence[Case], is_straight: bool) -> List[After]:
    """The states after all cases, in their order."""
    if is_straight:
        return run_machine([Program(1, cases, True)])
    found: List[After] = []
    for place in range(0, len(cases), SPES):
        found += run_machine([Program(number + 1, [case], False) for number, case in enumerate(cases[place:place + SPES])])
    return found


def run_machine(programs: Sequence[Program]) -> List[After]:
    values = sum(len(case.mailbox) for program in programs for case in program.cases)
    machine = ["cell-machine 1", "lines 1", "budget 1000000", "spe", SPONGE, *(line for program in programs for line in program.machine_lines())]
    script = [f"step h 0 {values}"] * (values > 0) + [line for program in programs for line in program.script_lines()]
    with tempfile.TemporaryDirectory(prefix="cell-vectors-") as room:
        files = pathlib.Path(room, "machine"), pathlib.Path(room, "script")
        for file, lines in zip(files, (machine, script)):
            file.write_text("".join(f"{line}\n" for line in lines))
        done = asked("cell_cli", "debug", *files)
    if done.returncode:
        raise Refused(f"the machine of the cases is refused: {said_of(done)}")
    found = list(states_in(done.stdout))
    if len(found) != sum(len(program.cases) for program in programs):
        raise Refused(f"{len(found)} states are printed")
    return found


def states_in(text: str) -> Iterator[After]:
    """The states that a script prints."""
    state = None
    for line in text.splitlines():
        head = STATE.fullmatch(line)
        if head:
            if state is not None:
                yield state
            state = After(head[2], int(head[3], 16), {}, {})
        elif state is not None and line.startswith("r"):
            name, value = line.split()
            state.registers[int(name[1:])] = bytes.fromhex(value)
        elif state is not None:
            _, _, at, value = line.split()
            state.store[int(at, 16) % STORE] = bytes.fromhex(value)
    if state is not None:
        yield state
