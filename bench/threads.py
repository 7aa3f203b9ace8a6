#!/usr/bin/env python3
"""Measures runs on threads.

Usage: bench/threads.py

Of runs of a million steps with 1, 2, 4 and 8 processors it prints the steps a second of `cell run`, whose steps are made by workers on threads, and of the
same machine on one thread, where actors take turns (`run_trace alone`); both read the files and write record and states. With one processor the difference
of their times is what a turn costs apart from its step. Each time is the best of five, less that of a run of one step.
"""
import celltools.common.starting  # noqa: F401  (before all others)

import pathlib
import tempfile
from typing import Callable, List, Tuple

from celltools.common.ending import end
from celltools.common.repository import CELL
from lib.machines import LINES, blocks, machine_file
from lib.measuring import STEPS, TRACER, Path, called, measured

PROCESSORS = (1, 2, 4, 8)
SOURCES = ("bench/arithmetic.s", "bench/transfer.s", "bench/lists.s")
Making = Callable[[int, int], pathlib.Path]  # of a budget and a number of processors


def machines(folder: str) -> List[Tuple[str, Making]]:
    """The machines that are measured: a title, and what makes the machine file."""
    def of_source(source: str) -> Making:
        return lambda budget, spes: machine_file(folder, source, budget, spes, LINES)
    return [("blocks", lambda budget, spes: blocks(folder, budget, spes)), *((source, of_source(source)) for source in SOURCES)]


def seconds(form: str, program: Path, long: Path, short: Path) -> float:
    """What a program takes for the steps of a long run."""
    return measured([form, long], program=program)[0] - measured([form, short], program=program)[0]


def report(title: str, spes: int, long: Path, short: Path) -> None:
    threads = seconds("run", CELL, long, short)
    alone = seconds("alone", TRACER, long, short)
    print(f"{title}, {spes} processors: {STEPS / threads / 1e6:.2f} million steps a second on threads, {STEPS / alone / 1e6:.2f} on one, "
          f"{threads / alone:.2f} times the time, {1e9 * (threads - alone) / STEPS:+.0f} ns a step", flush=True)


def main(words: List[str]) -> int:
    called(__doc__, words)
    with tempfile.TemporaryDirectory() as folder:
        for title, make in machines(folder):
            for spes in PROCESSORS:
                report(title, spes, make(STEPS, spes), make(1, spes))
    return 0


if __name__ == "__main__":
    end(main)
