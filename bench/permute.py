#!/usr/bin/env python3
"""Measures `permute`.

Usage: bench/permute.py

Of the machine of `gen 64`, and of runs of 100,000 and 400,000 steps on eight processors, it prints what `cell permute` takes for the number 1, files in and
texts out, with its greatest memory, beside what `cell check` of the same record takes. Of runs of a million steps, of which only the last one isn't what a
settled run has, it prints the same: there `permute` refuses when it has looked at all steps, and what it takes more than `check` is what the question takes
whether a run is settled. (Of a settled run it can't be told apart, since `permute` then goes on.) Each time is the better of two.
"""
import celltools.common.starting  # noqa: F401  (before all others)

import pathlib
import subprocess
import tempfile
from typing import List, Tuple

from celltools.common.ending import end
from celltools.source.generated import write_machine
from lib.machines import LINES, SPES, machine_file
from lib.measuring import STEPS, Path, called, measured, recorded

NUMBER = "1"
ROUNDS = 64
BUDGETS = (100_000, 400_000)
SOURCES = ("bench/arithmetic.s", "bench/transfer.s", "bench/counter.s")
RUNS = 2
NOT_SETTLED = 6
NINTH = "spe\ncode 0x0 01a00e8301e00e8300000000\n"  # rdch $3,$ch29; rchcnt $3,$ch29; stop 0
SEND = f"host send {SPES} 1\n"
LAST = f"h\nx {SPES} 2\n"
LAST_STEPS = 3


def beside_check(title: str, machine: Path, record: Path, status: int = 0) -> Tuple[float, float]:
    """Prints what `permute` of a record takes, which ends with this status, beside `check`. Answers both times."""
    checked, checked_most = measured(["check", machine, record], runs=RUNS)
    took, most = measured(["permute", machine, record, NUMBER], allowed=(status,), runs=RUNS, errors=subprocess.DEVNULL)
    print(f"{title}: {took:.2f} s and {most / 1024:.1f} MiB, {took / checked:.1f} times the {checked:.2f} s of the check, which takes "
          f"{checked_most / 1024:.1f} MiB", flush=True)
    return took, checked


def appended(machine: pathlib.Path, text: str) -> pathlib.Path:
    """A machine file with more behind what it has."""
    with open(machine, "a") as file:
        file.write(text)
    return machine


def counted_at_the_end(folder: str, source: str) -> Tuple[pathlib.Path, pathlib.Path]:
    """A machine file and the record of a run that reads a count in its last step: a ninth processor does, which waits for the host until all else is done."""
    before, whole = (appended(machine_file(folder, source, budget, SPES, LINES), NINTH) for budget in (STEPS - LAST_STEPS, STEPS))
    steps, _, _ = recorded(before).read_text().partition("steps ")
    record = pathlib.Path(f"{whole}.record")
    record.write_text(f"{steps}{LAST}steps {STEPS}\n")
    return appended(whole, SEND), record


def main(words: List[str]) -> int:
    called(__doc__, words)
    with tempfile.TemporaryDirectory() as folder:
        generated = write_machine(pathlib.Path(folder), ROUNDS)
        beside_check(f"the machine of gen {ROUNDS}", generated, recorded(generated))
        for source in SOURCES:
            for budget in BUDGETS:
                machine = machine_file(folder, source, budget, SPES, LINES)
                beside_check(f"{source}, {budget} steps", machine, recorded(machine))
        for source in SOURCES:
            took, checked = beside_check(f"{source}, {STEPS} steps, unsettled by the last", *counted_at_the_end(folder, source), NOT_SETTLED)
            print(f"{source}: whether it is settled takes {took - checked:.2f} s, {(took - checked) / checked:.1f} times the check")
    return 0


if __name__ == "__main__":
    end(main)
