#!/usr/bin/env python3
"""Compares what a step costs with what it costs in another state.

Usage: bench/steps.py OTHER

OTHER is the root of another checkout, with its programs built the same way, or a folder that has them as crates/NAME/out/NAME. Costs are machine instructions of
a step, counted by valgrind between two lengths of a run, so they don't depend on the hour: of the run, with the choice of each step, on one thread
(`run_trace alone`); of the check of its output; of making it again in another order (`cell permute`), by which it is told that it is settled; of a hunt of one
run; and of telling whether that is settled (`hunt each`). Both programs have to make the same run.
"""
import celltools.common.starting  # noqa: F401  (before all others)

import pathlib
import subprocess
import sys
import tempfile
from typing import Iterator, List, Sequence, Tuple

from celltools.common.ending import end
from celltools.common.repository import ROOT, built
from celltools.common.words import Words
from lib.machines import LINES, SPES, machine_file
from lib.measuring import Path, instructions

LENGTHS = (10_000, 30_000)
SOURCES = ("bench/arithmetic.s", "bench/transfer.s", "bench/lists.s", "bench/counter.s")


def programs_of(root: Path) -> List[pathlib.Path]:
    """run_trace, `cell` and `hunt` of a checkout."""
    programs = [pathlib.Path(root).resolve() / built(name).relative_to(ROOT) for name in ("run_trace", "cell_cli", "hunt")]
    for program in programs:
        if not program.is_file():
            sys.exit(f"{program}: no such program; build it first, by ./cell in its checkout")
    return programs


def output_of(tracer: pathlib.Path, machine: pathlib.Path) -> bytes:
    done = subprocess.run([tracer, "alone", machine], cwd=ROOT, capture_output=True)
    if done.returncode:
        sys.exit(f"{tracer} alone {machine} failed: {done.stderr.decode(errors='replace')}")
    return done.stdout


def recorded(tracers: Sequence[pathlib.Path], machine: pathlib.Path) -> pathlib.Path:
    """The output of the run, in a file, where all programs make the same one."""
    outputs = {output_of(tracer, machine) for tracer in tracers}
    if len(outputs) != 1:
        sys.exit(f"{machine}: the two programs make other runs, so their costs can't be compared")
    record = pathlib.Path(f"{machine}.out")
    record.write_bytes(outputs.pop())
    return record


def of_a_step(words: Sequence[Path], folder: str, machines: Sequence[Sequence[Path]]) -> float:
    """How many instructions a step takes between the two lengths, by a command on a run of each."""
    few, many = (instructions(folder, [*words, *machine]) for machine in machines)
    return (many - few) / (LENGTHS[1] - LENGTHS[0])


def report(what: str, before: float, now: float) -> None:
    print(f"{what}: {before:.0f} instructions a step before, {now:.0f} now, {now / before:.3f} times", flush=True)


def forms(programs: Sequence[pathlib.Path], machines: Sequence[Path], records: Sequence[Path]) -> Iterator[Tuple[str, List[Path], List[List[Path]]]]:
    """What is measured of a source: its name, the command, and what stands behind it at both lengths."""
    tracer, cell, hunt = programs
    both: List[List[Path]] = [list(pair) for pair in zip(machines, records)]
    yield "a run", [tracer, "alone"], [[machine] for machine in machines]
    yield "its check", [cell, "check"], both
    yield "its other order", [cell, "permute"], [[*files, "1"] for files in both]
    yield "a hunt of one run", [hunt], [[machine, "1"] for machine in machines]
    yield "whether that is settled", [hunt], [[machine, "each", "1"] for machine in machines]


def compare(folder: str, source: str, others: Sequence[pathlib.Path], own: Sequence[pathlib.Path]) -> None:
    """What a step of a source on eight processors costs in both states."""
    machines = [machine_file(folder, source, length, SPES, LINES) for length in LENGTHS]
    records = [recorded([others[0], own[0]], machine) for machine in machines]
    for before, now in zip(forms(others, machines, records), forms(own, machines, records)):
        report(f"{source}, {now[0]}", *(of_a_step(words, folder, files) for _, words, files in (before, now)))


def main(words: List[str]) -> int:
    reader = Words(__doc__)
    reader.add_argument("other")
    others, own = programs_of(reader.read(words).other), programs_of(ROOT)
    with tempfile.TemporaryDirectory() as folder:
        for source in SOURCES:
            compare(folder, source, others, own)
    return 0


if __name__ == "__main__":
    end(main)
