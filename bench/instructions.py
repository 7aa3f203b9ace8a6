#!/usr/bin/env python3
"""Counts the machine instructions of a searched step of a hunt by valgrind, with other programs in place of this one.

Usage: bench/instructions.py [--only TEXT].. [--spes N,..] [PROGRAM..]

Of each machine, or of those whose names have a TEXT, it prints a line for each program: the instructions a step on one, eight and sixteen SPUs, or on N. That is the
difference of two hunts, of runs of LONG and of SHORT steps, divided by the difference of the steps. So the start of the program doesn't count. The counts are the
same each time, whatever else the machine does. The programs of bench/ never end, so their runs spend the budget, and a program that makes such a run again to look
for a livelock counts these steps, too; those of ENDING end, and are measured with all steps that they make.
"""
import celltools.common.starting  # noqa: F401  (before all others)

import argparse
import pathlib
import re
import subprocess
import sys
import tempfile
from typing import List

from celltools.common.ending import end
from celltools.common.repository import ROOT, built
from celltools.common.words import Words
from lib.machines import machine_file

HUNT = built("hunt")
SOURCES = ("arithmetic", "memory", "counter", "transfer", "lists")
ENDING = ("slowpath", "mutex", "stream3")  # of examples/races
SPES = (1, 8, 16)
RUNS, SHORT, LONG = 4, 10_000, 30_000
MANY, FEW = 40, 8  # runs of those that end
FOUND = 0, 1  # the statuses of a hunt
COUNTED = re.compile(rb"Collected : (\d+)")
STEPS = re.compile(rb'"steps":(\d+)')


def output(words: List[str]) -> "subprocess.CompletedProcess[bytes]":
    done = subprocess.run(words, cwd=ROOT, capture_output=True)
    if done.returncode not in FOUND:
        sys.exit(f"{' '.join(words)} ended with status {done.returncode}: {done.stderr.decode(errors='replace')}")
    return done


def instructions(program: str, machine: pathlib.Path, runs: int) -> int:
    """The machine instructions of a hunt."""
    words = ["valgrind", "--tool=callgrind", "--callgrind-out-file=/dev/null", program, str(machine), "--runs", str(runs), "--jobs", "1"]
    return int(COUNTED.findall(output(words).stderr)[-1])


def steps(program: str, machine: pathlib.Path, runs: int) -> int:
    return int(STEPS.findall(output([program, str(machine), "--runs", str(runs), "--json"]).stdout)[0])


def of_steps(folder: str, program: str, source: str, spes: int) -> int:
    """The instructions a step of runs that spend their budget."""
    long, short = (instructions(program, machine_file(folder, f"bench/{source}.s", budget, spes, 512), RUNS) for budget in (LONG, SHORT))
    return round((long - short) / (RUNS * (LONG - SHORT)))


def of_ending(program: str, name: str) -> int:
    """The instructions a step of runs that end."""
    machine = ROOT / "examples" / "races" / f"{name}.cell"
    return round((instructions(program, machine, MANY) - instructions(program, machine, FEW)) / (steps(program, machine, MANY) - steps(program, machine, FEW)))


def main(words: List[str]) -> int:
    asked = Words(__doc__ or "")
    asked.add_argument("--only", action="append", metavar="TEXT")
    asked.add_argument("--spes", default=",".join(map(str, SPES)))
    asked.add_argument("programs", nargs="*", default=[str(HUNT)])
    given: argparse.Namespace = asked.read(words, 0)
    spes = [int(number) for number in given.spes.split(",")]
    is_asked = lambda name: not given.only or any(text in name for text in given.only)  # noqa: E731
    with tempfile.TemporaryDirectory() as folder:
        for program in given.programs:
            for source in filter(is_asked, SOURCES):
                counts = ", ".join(f"{of_steps(folder, program, source, number):,} on {number}" for number in spes)
                print(f"{source}: {counts} ({program})", flush=True)
            for name in filter(is_asked, ENDING):
                print(f"{name}: {of_ending(program, name):,} ({program})", flush=True)
    return 0


if __name__ == "__main__":
    end(main)
