#!/usr/bin/env python3
"""Measures `cell`.

Usage: bench/run.py

Prints instructions per second of two loops of a million steps; steps per second of a whole run, file in
and text out, with one, eight and sixteen processors; the greatest memory of the widest machine; steps per
second of eight and of sixteen processors that transfer without a pause, by single commands and by lists,
and that raise one counter on the widest machine, and the time of one of their steps in runs of three
lengths; the time of the two loops beside that of a plain interpreter (bench/plain.c, compiled by the machine's `cc`); steps per second and the greatest memory of the check of the output of such runs, with the search
for races, beside those of the run; and the time and the greatest memory that assembling three sources of
4 MB takes. Each figure is the best of five runs; the time of a run of one step is taken off that of the
loops and of the commands, so that starting the program isn't counted.
"""
import celltools.common.starting  # noqa: F401  (before all others)

import os
import shutil
import subprocess
import sys
import tempfile
from typing import Iterator, List

from celltools.common.ending import end
from celltools.common.repository import CELL, ROOT
from lib.machines import machine_file
from lib.measuring import BUDGETS, RUNS, STEPS, called, measured, usage_of

SOURCE_BYTES = 4_194_304


def loop(folder: str, source: str) -> None:
    """Instructions per second of a loop, and the memory of its run."""
    idle, _ = measured(["run", machine_file(folder, source, 1)])
    busy, most = measured(["run", machine_file(folder, source, STEPS)])
    print(f"{source}: {STEPS / (busy - idle) / 1e6:.1f} million instructions a second; "
          f"{busy:.2f} s and {most / 1024:.0f} MiB for a million steps, {idle * 1000:.0f} ms for one")


def whole_run(folder: str, source: str, spes: int, lines: int) -> None:
    """Steps per second of a whole run of a million steps, and its memory."""
    took, most = measured(["run", machine_file(folder, source, STEPS, spes, lines)])
    print(f"{source} on {spes} processors with {lines} lines: {STEPS / took / 1e6:.1f} million steps a second; "
          f"{took:.2f} s and {most / 1024:.1f} MiB")


def commands(folder: str, source: str, spes: int, lines: int) -> None:
    """Steps per second of processors with commands, their memory, and whether a step costs more when more steps were made before it."""
    idle, _ = measured(["run", machine_file(folder, source, 1, spes, lines)])
    for budget in BUDGETS:
        took, most = measured(["run", machine_file(folder, source, budget, spes, lines)])
        print(f"{source} on {spes} processors with {lines} lines: {1e9 * (took - idle) / budget:.0f} ns a step, "
              f"{took:.3f} s and {most / 1024:.1f} MiB for {budget} steps")
    print(f"{source} on {spes} processors with {lines} lines: {BUDGETS[-1] / (took - idle) / 1e6:.2f} million steps a second")


def checking(folder: str, source: str, spes: int, lines: int) -> None:
    """Steps per second and the memory of the check of a run's output, beside the run's own."""
    machine = machine_file(folder, source, STEPS, spes, lines)
    output = f"{machine}.out"
    ran, ran_most = measured(["run", machine])
    with open(output, "wb") as file:
        subprocess.run([CELL, "run", machine], stdout=file, cwd=ROOT, check=True)
    took, most = measured(["check", machine, output])
    print(f"{source} on {spes} processors with {lines} lines: a check takes {STEPS / took / 1e6:.2f} million steps a second; "
          f"{took:.2f} s and {most / 1024:.1f} MiB, {took / ran:.2f} times the run's {ran:.2f} s, which takes {ran_most / 1024:.1f} MiB")


def beside_plain(folder: str, source: str) -> None:
    """How many times as long as a plain interpreter in C a whole run takes, file in and text out, the two in turn. Both have to print the same."""
    compiler = shutil.which("cc")
    if compiler is None:
        print("bench/plain.c: there is no cc that compiles it")
        return
    plain, image, machine = os.path.join(folder, "plain"), os.path.join(folder, "image"), machine_file(folder, source, STEPS)
    subprocess.run([compiler, "-O2", "-o", plain, ROOT / "bench" / "plain.c"], check=True)
    with open(image, "wb") as file:
        subprocess.run([CELL, "asm", source], stdout=file, cwd=ROOT, check=True)
    with open(image, "rb") as file:
        text = subprocess.run([plain, str(STEPS)], stdin=file, capture_output=True, check=True).stdout
    if text != subprocess.run([CELL, "run", machine], cwd=ROOT, capture_output=True, check=True).stdout:
        sys.exit(f"bench/plain.c prints another text of {source} than cell run")
    ours, theirs = zip(*[(usage_of([CELL, "run", machine])[1], plain_usage(plain, image)) for _ in range(RUNS)])
    print(f"{source}: {min(ours) / min(theirs):.1f} times the processor time of a plain interpreter in C, {min(ours) * 1e3:.0f} and {min(theirs) * 1e3:.0f} ms")


def plain_usage(plain: str, image: str) -> float:
    """The processor time in seconds of a run of the plain interpreter."""
    with open(image, "rb") as file:
        return usage_of([plain, str(STEPS)], standard_input=file)[1]


def assembling(folder: str, title: str, lines: Iterator[str]) -> None:
    """The time and the memory of a source of 4 MB."""
    name = os.path.join(folder, "big.s")
    size = 0
    with open(name, "w") as file:
        for line in lines:
            if size + len(line) > SOURCE_BYTES:
                break
            file.write(line)
            size += len(line)
    took, most = measured(["asm", name])
    print(f"{title}: {took:.2f} s and {most / 1024:.0f} MiB for {size / 1048576:.1f} MiB of source")


def commented() -> Iterator[str]:
    """As many instructions as a store holds, each with a label and a comment."""
    for number in range(65_536):
        yield f"l{number}:\tai\t$3,$4,{number % 512}\t# the number of this line is {number:>12}\n"


def short() -> Iterator[str]:
    """Short lines: labels alone."""
    number = 0
    while True:
        yield f"l{number}:\n"
        number += 1


def empty() -> Iterator[str]:
    """Empty lines."""
    while True:
        yield "\n"


def main(words: List[str]) -> int:
    called(__doc__, words)
    with tempfile.TemporaryDirectory() as folder:
        loop(folder, "bench/arithmetic.s")
        loop(folder, "bench/memory.s")
        beside_plain(folder, "bench/arithmetic.s")
        beside_plain(folder, "bench/memory.s")
        whole_run(folder, "bench/arithmetic.s", 1, 1)
        whole_run(folder, "bench/arithmetic.s", 8, 1)
        whole_run(folder, "bench/arithmetic.s", 16, 1)
        whole_run(folder, "bench/memory.s", 16, 524_288)
        for spes in (8, 16):
            commands(folder, "bench/transfer.s", spes, 128)
            commands(folder, "bench/lists.s", spes, 128)
        commands(folder, "bench/counter.s", 16, 524_288)
        checking(folder, "bench/arithmetic.s", 1, 1)
        checking(folder, "bench/transfer.s", 8, 128)
        checking(folder, "bench/transfer.s", 16, 128)
        assembling(folder, "65,536 instructions with labels and comments", commented())
        assembling(folder, "labels alone", short())
        assembling(folder, "line feeds alone", empty())
    return 0


if __name__ == "__main__":
    end(main)
