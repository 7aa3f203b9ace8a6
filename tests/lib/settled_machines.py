"""Writes random machines that are meant to be settled, of which some slip."""
import pathlib
import random
from typing import Callable, Tuple

from lib.random_machines import GETLLAR, PUTLLC, PUTLLUC, PUTQLLUC, Program, host_lines, load, write

OWN_BYTES, SLOT_BYTES, SLOTS = 2048, 256, 8
PUTF, PUTL, GET, BARRIER, ALL_TAGS = 0x22, 0x24, 0x40, 0xc0, 7


class Settled(Program):
    """A program that is meant to be settled, without a race: each processor has its own part of main memory, and waits before it uses bytes again."""

    def __init__(self, rng: random.Random, spes: int, spe: int) -> None:
        super().__init__(rng, spes)
        self.spe, self.slot = spe, 0

    def place(self) -> Tuple[int, int]:
        """Bytes of the store and of main memory that nothing uses yet."""
        if self.slot == SLOTS:
            self.tags()
        self.slot += 1
        at = SLOT_BYTES * (self.slot - 1)
        return 0x1000 + at, OWN_BYTES * (self.spe + 1) + at

    def transfer(self) -> None:
        rng = self.rng
        local, memory = self.place()
        self.lines += write(16, local) + write(18, memory) + write(19, rng.choice([16, 64, 144]))
        self.lines += write(20, rng.randrange(3)) + write(21, rng.choice([0x20, 0x40]) + rng.choice([0, 1, 2]))

    def burst(self) -> None:
        """Many commands of one tag, each behind the one before."""
        rng = self.rng
        local, memory = self.place()
        self.lines += write(16, local) + write(18, memory) + write(19, 16) + write(20, 1) + load(10, rng.choice([PUTF, BARRIER]))
        self.lines += ["wrch $ch21,$10"] * rng.randrange(3, 13)

    def tags(self) -> None:
        """Waits for all that was issued, so that all bytes may be used again."""
        self.lines += write(22, ALL_TAGS) + write(23, self.rng.choice([2, 3, 0x80000000])) + ["rdch $13,$ch24"]
        self.slot = 0

    def listed(self) -> None:
        """A list of one to three elements, each of whose stalls is read and acknowledged, and which is waited for."""
        rng = self.rng
        local, memory = self.place()
        elements = [(rng.random() < 0.4, rng.choice([0, 16, 48]), memory + 64 * k) for k in range(rng.randrange(1, 4))]
        at, tag = 0x2000 + 64 * len(self.lists), rng.randrange(3)
        self.lists.append((at, elements))
        self.lines += write(16, local) + write(18, at) + write(19, 8 * len(elements)) + write(20, tag)
        self.lines += write(21, rng.choice([0x24, 0x44]))
        self.lines += (["rdch $11,$ch25"] + write(26, tag)) * sum(flag for flag, _, _ in elements)
        self.tags()

    def atomic(self) -> None:
        rng = self.rng
        self.lines += write(16, 0x3000) + write(18, 128 * rng.randrange(3))
        for opcode in rng.choice([[GETLLAR, PUTLLC], [PUTLLC], [PUTLLUC]]):
            self.lines += write(21, opcode) + ["rdch $14,$ch27"]

    def queued_line(self) -> None:
        """PUTQLLUC of a line that the atomic commands of all processors share, from bytes of its own."""
        rng = self.rng
        self.lines += write(16, 0x3800) + write(18, 128 * rng.randrange(3)) + write(20, rng.randrange(3))
        self.lines += write(21, PUTQLLUC)

    def touch(self) -> None:
        self.lines.append(self.rng.choice(["stqa $10,0x3400", "lqa $16,0x3400", "lqa $16,0x3000"]))

    def slip(self) -> None:
        """What no settled program does, or what one does only somewhere else."""
        rng = self.rng
        self.lines += rng.choice([
            ["rchcnt $18,$ch29"], ["rchcnt $18,$ch24"], write(23, rng.randrange(2)), write(23, 2), write(21, GETLLAR),
            write(26, rng.randrange(3)), ["rdch $11,$ch25"], write(20, 0) + write(21, BARRIER), write(19, 0) + write(21, PUTL),
            write(1, 0), ["rdch $18,$ch11"], ["rdch $18,$ch12"], write(21, 0xff), write(22, ALL_TAGS),
            write(18, 0) + write(21, GET)])

    def text(self) -> str:
        rng = self.rng
        kinds = [self.transfer] * 3 + [self.burst] * 2 + [self.listed] * 4 + [self.tags] * 2 + [self.atomic] * 3 + [self.queued_line] + [self.mail] * 2
        for _ in range(rng.randrange(3, 9)):
            rng.choice(kinds + [self.touch])()
        if rng.random() < 0.15:
            self.slip()
            rng.choice(kinds)()
        return "".join(f"\t{line}\n" for line in self.lines + ["stop 1"])


def write_settled(rng: random.Random, folder: pathlib.Path, kind: Callable[[random.Random, int, int], Program] = Settled) -> None:
    """A machine file of programs that are meant to be settled, with its sources."""
    spes = rng.randrange(1, 4)
    lines = ["cell-machine 1", "lines 128", "budget 100000"]
    for spe in range(spes):
        program = kind(rng, spes, spe)
        (folder / f"{spe}.s").write_text(program.text())
        lines += ["spe", f"source {spe}.s"]
        for at, elements in program.lists:
            words = "".join(f"{(flag << 31) | size:08x}{ea:08x}" for flag, size, ea in elements)
            lines.append(f"bytes {at} {words}")
    host = [line for line in host_lines(rng, spes) if rng.random() < 0.02 or not line.startswith(("host signal", "host store"))]
    (folder / "machine.cell").write_text("\n".join(lines + host) + "\n")
