#!/usr/bin/env python3
"""Measures the generator.

Usage: bench/gen.py

Of `cell gen 64` it prints the seconds and the most memory, on one core and on all. Of the same machine as a file, and of one whose processors go on for
a million steps (bench/blocks.s), it prints what `cell run` takes, files in and texts out, beside a run on one thread (`run_trace alone`), what `cell check`
of its output takes, and of a step of the check what following the record, the orderer and the search beside them take. Each time is the best of five.
"""
import celltools.common.starting  # noqa: F401  (before all others)

import os
import pathlib
import tempfile
from typing import List

from celltools.common.ending import end
from celltools.common.repository import CELL
from celltools.source.generated import write_machine
from lib.machines import blocks
from lib.measuring import STEPS, TRACER, Path, called, measured, report_check

NUMBER = 64


def summaries() -> None:
    one = measured(["-c", "0", CELL, "gen", str(NUMBER)], program="taskset")
    all_cores = measured(["gen", str(NUMBER)])
    for cores, (took, most) in ("one core", one), (f"{os.cpu_count()} cores", all_cores):
        print(f"gen {NUMBER} on {cores}: {took:.2f} s and {most / 1024:.1f} MiB")


def report(title: str, machine: Path) -> None:
    took, most = measured(["run", machine])
    alone, _ = measured(["alone", machine], program=TRACER)
    print(f"{title}: {took:.2f} s and {most / 1024:.1f} MiB for a run on threads, {alone:.2f} s on one")
    report_check(title, machine)


def main(words: List[str]) -> int:
    called(__doc__, words)
    summaries()
    with tempfile.TemporaryDirectory() as folder:
        report(f"the machine of gen {NUMBER}", write_machine(pathlib.Path(folder), NUMBER))
        report("blocks", blocks(folder, STEPS))
    return 0


if __name__ == "__main__":
    end(main)
