#!/usr/bin/env python3
"""Whether a step costs more when more steps were made before it, in machine instructions counted by valgrind.

Usage: bench/growth.py [run] [check] [hunt]   (all of them if none is named)

 `run` takes some five
minutes: it has the runs of transfers. `check` takes some ten: it has the checks of runs in which nobody waits for a command by its tag, and at last the
processor time of a check of a million steps beside that of transfers. `hunt` prints the processor time a step of one run of a hunt in which a race
repeats, by the number of steps: where it stays the same, a hunt is linear. The runs of the first two are made on one thread (`run_trace alone`), so that they have the same steps
each time.
"""
import celltools.common.starting  # noqa: F401  (before all others)

import os
import pathlib
import tempfile
from typing import Callable, Dict, List, Sequence, Tuple

from celltools.common.ending import end
from celltools.common.repository import built
from celltools.common.words import Words
from lib.machines import LINES, SPES, filled, machine_file
from lib.measuring import STEPS, TRACER, Path, instructions, recorded, usage_of

CELL = built("cell_cli")
HUNT = built("hunt")
RUNS = ("bench/transfer.s", "bench/lists.s")
RUN_BUDGETS = (10_000, 20_000, 40_000, 80_000, 160_000, 800_000, 1_000_000)
# The sources of such a run, of each processor with the address at which it begins.
CHECKED = {
    "two that signal each other": (("bench/pingpong.s", 0), ("bench/pingpong.s", 0x80)),
    "signals to oneself": (("bench/lone_signals.s", 0),),
    "PUTQLLUC of a line": (("bench/lone_lines.s", 0),),
    "lists that stall": (("bench/stalls.s", 0),),
}
CHECK_BUDGETS = (10_000, 20_000, 40_000, 80_000, 160_000)
TIMED = 5
HUNT_BUDGETS = (10_000, 20_000, 40_000, 80_000, 160_000, 320_000, STEPS)
# Machines in which a race repeats: the source, the processors that have it, and the numbers in it for a budget.
RACES: Dict[str, Tuple[str, int, Callable[[int], Dict[str, int]]]] = {
    "GETs that nobody waits for": ("forgotten.s", 1, lambda budget: {"COMMAND": 0x40}),
    "PUTs that nobody waits for": ("forgotten.s", 1, lambda budget: {"COMMAND": 0x20}),
    "two that write in turn": ("racing.s", 2, lambda budget: {}),
    "sixteen that write in turn": ("racing.s", 16, lambda budget: {}),
    "loads after GETs that were waited for late": ("late.s", 1, lambda budget: {"COUNT": budget // 12}),
}


def growth(folder: str, what: str, budgets: Sequence[int], words_of: Callable[[int], Sequence[Path]]) -> None:
    """What a step takes in each part of a run, by a command on the run of a budget."""
    steps, before = 1, instructions(folder, words_of(1))
    for budget in budgets:
        taken = instructions(folder, words_of(budget))
        print(f"{what}, steps {steps} to {budget}: {(taken - before) / (budget - steps):.0f} instructions a step", flush=True)
        steps, before = budget, taken


def machine_of(folder: str, spes: Sequence[Tuple[str, int]], budget: int) -> pathlib.Path:
    """The machine file of processors, each with its source and where it begins."""
    name = pathlib.Path(folder, f"{len(spes)}.{os.path.basename(spes[0][0])}.{budget}.cell")
    lines = ["cell-machine 1", "lines 1", f"budget {budget}"]
    for source, entry in spes:
        lines += ["spe", f"source {source}", f"entry {entry}"]
    name.write_text("".join(f"{line}\n" for line in lines))
    return name


def check_of(machine: pathlib.Path) -> List[Path]:
    """The check of a machine's run, which is made once."""
    record = pathlib.Path(f"{machine}.record")
    return [CELL, "check", machine, record if record.exists() else recorded(machine)]


def check_time(machine: pathlib.Path) -> float:
    """The least processor time of several checks, in seconds."""
    return min(usage_of(check_of(machine), (0, 1))[1] for _ in range(TIMED))


def runs(folder: str) -> None:
    for source in RUNS:
        growth(folder, source, RUN_BUDGETS, lambda budget: [TRACER, "alone", machine_file(folder, source, budget, SPES, LINES)])


def checks(folder: str) -> None:
    for what, spes in CHECKED.items():
        growth(folder, f"check of {what}", CHECK_BUDGETS, lambda budget: check_of(machine_of(folder, spes, budget)))
    transfer = check_time(machine_file(folder, "bench/transfer.s", STEPS, SPES, LINES))
    print(f"check of a million steps of bench/transfer.s on eight processors: {transfer:.2f} s")
    for what, spes in CHECKED.items():
        took = check_time(machine_of(folder, spes, STEPS))
        print(f"check of a million steps of {what}: {took:.2f} s, {took / transfer:.2f} times that", flush=True)


def hunts(folder: str) -> None:
    for what, (source, spes, numbers) in RACES.items():
        for budget in HUNT_BUDGETS:
            copy = filled(folder, source, f"{spes}.{budget}.{source}", **numbers(budget))
            took = usage_of([HUNT, machine_file(folder, str(copy), budget, spes), "1"], (0, 1))[1]
            print(f"hunt of {what}, {budget} steps: {took:.2f} s, {1e6 * took / budget:.2f} microseconds a step", flush=True)


PARTS = {"run": runs, "check": checks, "hunt": hunts}


def main(words: List[str]) -> int:
    reader = Words(__doc__)
    reader.add_argument("parts", nargs="*", choices=[*PARTS, []], default=list(PARTS))
    asked = reader.read(words, 0).parts
    with tempfile.TemporaryDirectory() as folder:
        for name, part in PARTS.items():
            if name in asked:
                part(folder)
    return 0


if __name__ == "__main__":
    end(main)
