"""Writes random machines: programs with transfers, lists that stall, atomic commands, mailboxes, signals and events, and a host."""
import pathlib
import random
from typing import List, Tuple

GETLLAR, PUTLLC, PUTLLUC, PUTQLLUC = 0xd0, 0xb4, 0xb0, 0xb8
SIGNALS = (0xa0, 0xa1, 0xa2)
EVENTS = 0x7db  # all of them

Element = Tuple[bool, int, int]  # of a list: whether it stalls, its size, and its address


def load(register: int, value: int) -> List[str]:
    """The lines that load a number."""
    return [f"ilhu ${register},{value >> 16}", f"iohl ${register},{value & 0xffff}"] if value >= 0x8000 else [f"il ${register},{value}"]


def write(channel: int, value: int) -> List[str]:
    return load(10, value) + [f"wrch $ch{channel},$10"]


class Program:
    """A program of one processor of so many: its lines, the elements of its lists, and the opcodes of its atomic commands."""

    def __init__(self, rng: random.Random, spes: int) -> None:
        self.rng, self.spes = rng, spes
        self.lines: List[str] = []
        self.lists: List[Tuple[int, List[Element]]] = []
        self.atomics: List[int] = []

    def transfer(self) -> None:
        rng = self.rng
        size = rng.choice([16, 64, 144])
        base = rng.choice([0, 1, 1, 2])
        self.lines += write(16, 0x1000 + 256 * rng.randrange(4)) + write(18, 16 * rng.randrange(40)) + write(19, size)
        self.lines += write(20, rng.randrange(3)) + write(21, rng.choice([0x20, 0x40]) + base)

    def barrier(self) -> None:
        self.lines += write(20, self.rng.randrange(3)) + write(21, 0xc0)

    def listed(self) -> None:
        """A list of one to three elements, some of which stall."""
        rng = self.rng
        elements = [(rng.random() < 0.4, rng.choice([0, 16, 144]), 16 * rng.randrange(40)) for _ in range(rng.randrange(1, 4))]
        at = 0x2000 + 64 * len(self.lists)
        self.lists.append((at, elements))
        tag = rng.randrange(3)
        self.lines += write(16, 0x1800) + write(18, at) + write(19, 8 * len(elements)) + write(20, tag)
        self.lines += write(21, rng.choice([0x24, 0x44]) + rng.choice([0, 0, 1, 2]))
        if rng.random() < 0.8:
            stalls = sum(flag for flag, _, _ in elements)
            for _ in range(stalls):
                self.lines += ["rdch $11,$ch25"] * (rng.random() < 0.7) + write(26, tag)

    def tags(self) -> None:
        rng = self.rng
        self.lines += write(22, rng.choice([1, 2, 4, 3, 6, 7])) + write(23, rng.randrange(3))
        self.lines += ["il $12,1"] * rng.randrange(3) + ["rdch $13,$ch24"]

    def atomic(self) -> None:
        rng = self.rng
        self.lines += write(16, 0x3000) + write(18, 128 * rng.randrange(3))
        for opcode in rng.choice([[GETLLAR], [GETLLAR, PUTLLC], [GETLLAR, PUTLLC], [PUTLLC], [PUTLLUC]]):
            self.atomics.append(opcode)
            self.lines += write(21, opcode) + ["rdch $14,$ch27"] * (rng.random() < 0.7)

    def queued_line(self) -> None:
        rng = self.rng
        self.lines += write(16, 0x3000) + write(18, 128 * rng.randrange(3)) + write(20, rng.randrange(3)) + write(21, PUTQLLUC)

    def mail(self) -> None:
        self.lines += [self.rng.choice(["wrch $ch28,$10", "wrch $ch30,$10", "rdch $15,$ch29"])] * self.rng.randrange(1, 3)

    def signal(self) -> None:
        """A signal to a register of any processor, or of one that isn't there."""
        rng = self.rng
        register = rng.choice([0, 0, rng.randrange(2 * self.spes + 1)])
        self.lines += write(16, 0x1000 + 4 * rng.randrange(4)) + write(18, register) + write(19, 4)
        self.lines += write(20, rng.randrange(3)) + write(21, rng.choice(SIGNALS))

    def signalled(self) -> None:
        self.lines.append(self.rng.choice(["rdch $17,$ch3", "rdch $17,$ch3", "rdch $17,$ch4", "rchcnt $17,$ch3"]))

    def events(self) -> None:
        """A mask, and what a program does with the event status: it may wait, which orders nothing."""
        rng = self.rng
        self.lines += write(1, rng.choice([EVENTS, 0x300, 0x8]))
        self.lines += rng.choice([["rchcnt $18,$ch0"], ["rdch $18,$ch0", "wrch $ch2,$18"], ["rdch $18,$ch11"], write(2, 0x100)])

    def touch(self) -> None:
        self.lines.append(self.rng.choice(["stqa $10,0x1000", "lqa $16,0x1000", "stqa $10,0x2000", "lqa $16,0x1800"]))

    def text(self) -> str:
        rng = self.rng
        kinds = [self.transfer] * 4 + [self.barrier] + [self.listed] * 3 + [self.tags] * 3 + [self.atomic] * 3 + [self.queued_line] + [self.mail] * 3
        kinds += [self.signal] * 3 + [self.signalled, self.events, self.touch]
        for _ in range(rng.randrange(5, 10)):
            rng.choice(kinds)()
        return "".join(f"\t{line}\n" for line in self.lines + ["stop 1"])


def host_lines(rng: random.Random, spes: int) -> List[str]:
    """A script of the host."""
    kinds = ["send {p} 7", "send {p} 8", "take {p}", "take {p}", "takeintr {p}", "await {p}", "store 0x{a:x} 01020304", "signal {p} 1 4", "signal {p} 2 3"]
    return [f"host {rng.choice(kinds).format(p=rng.randrange(spes), a=16 * rng.randrange(40))}" for _ in range(rng.randrange(9))]


def mode_lines(rng: random.Random, spes: int) -> List[str]:
    """Signal registers in OR mode."""
    return [f"ormode {spe} {register}" for spe in range(spes) for register in (1, 2) if rng.random() < 0.3]


def write_machine(rng: random.Random, folder: pathlib.Path) -> List[List[int]]:
    """A machine file with its sources. Answers the opcodes of each processor's atomic commands."""
    spes = rng.randrange(1, 4)
    atomics: List[List[int]] = []
    lines = ["cell-machine 1", "lines 16", "budget 100000"]
    for spe in range(spes):
        program = Program(rng, spes)
        (folder / f"{spe}.s").write_text(program.text())
        atomics.append(program.atomics)
        lines += ["spe", f"source {spe}.s"]
        for at, elements in program.lists:
            words = "".join(f"{(flag << 31) | size:08x}{ea:08x}" for flag, size, ea in elements)
            lines.append(f"bytes {at} {words}")
    (folder / "machine.cell").write_text("\n".join(lines + mode_lines(rng, spes) + host_lines(rng, spes)) + "\n")
    return atomics
