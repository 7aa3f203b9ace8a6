#!/usr/bin/env python3
"""Measures tools/picture.

Usage: bench/picture.py

Of records of 1,000, 100,000 and 1,000,000 steps it prints how long a page takes, the best of three, the greatest memory of the tool, and the size of the page:
of rounds of a PUT with its tag status and a race behind the last (bench/picture.s), and of bench/transfer.s on eight processors, where most steps are of
flow controllers.
"""
import celltools.common.starting  # noqa: F401  (before all others)

import pathlib
import tempfile
from typing import List, Tuple

from celltools.common.ending import end
from celltools.common.repository import ROOT
from lib.machines import LINES, SPES, filled, machine_file
from lib.measuring import BUDGETS, called, recorded, steps_of, usage_of

STEPS_OF_ROUND = 132
LENGTHS = (1_000, *BUDGETS[1:])
TIMES = 3


def rounds(folder: str, steps: int) -> pathlib.Path:
    """A machine file of one processor that makes about so many steps and ends with a race."""
    source = filled(folder, "picture.s", f"rounds.{steps}.s", COUNT=(steps - 20) // STEPS_OF_ROUND)
    name = pathlib.Path(folder, f"rounds.{steps}.cell")
    name.write_text(f"cell-machine 1\nlines 1\nbudget {steps}\nspe\nsource {source}\n")
    return name


def measured(machine: pathlib.Path, record: pathlib.Path) -> Tuple[float, float, int]:
    """The time in seconds and the greatest memory in MiB of a page, and its size in bytes."""
    page = record.with_suffix(".html")
    with open(page, "wb") as file:
        took, _, most = usage_of([ROOT / "tools" / "picture", machine, record], output=file)
    return took, most / 1024, page.stat().st_size


def report(title: str, machine: pathlib.Path) -> None:
    record = recorded(machine)
    found = [measured(machine, record) for _ in range(TIMES)]
    print(f"{title}, {steps_of(record)} steps: {min(found)[0]:.1f} s, {max(most for _, most, _ in found):.0f} MiB, a page of {found[0][2] / 1e6:.2f} MB")


def main(words: List[str]) -> int:
    called(__doc__, words)
    with tempfile.TemporaryDirectory() as folder:
        for steps in LENGTHS:
            report("rounds on one processor", rounds(folder, steps))
        for steps in LENGTHS:
            report("transfers on eight", machine_file(folder, "bench/transfer.s", steps, SPES, LINES))
    return 0


if __name__ == "__main__":
    end(main)
