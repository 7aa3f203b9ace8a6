#!/usr/bin/env python3
"""Measures how often a hunt finds what goes wrong if an instruction of a clean program is left out, beside other hunts.

Usage: bench/mutants.py [--runs N] [--seed S] PROGRAM..

The mutants are the rows of tests/deletions.table in which some of 200 runs, but not all, have a data race, a deadlock, a fault or a halt. This clone's hunt and
each PROGRAM, such as the bin/hunt of an older commit, hunt each of them. A line for each mutant has how many of N runs (1,000) have what most runs have of these
four. The last lines have for each PROGRAM the geometric mean of the runs that it needs for a find, divided by those that this clone's hunt needs: of the mutants
that a run of one of the two misses, and of those that at most half of the runs of PROGRAM find. A mutant that every run of both finds can't be found sooner. A
spent budget is no find, since a fair schedule might have ended the run.
"""
import celltools.common.starting  # noqa: F401  (before all others)

import argparse
import importlib.util
import json
import math
import os
import pathlib
import re
import subprocess
import sys
import tempfile
from types import ModuleType
from typing import List, Sequence, Tuple

from celltools.common.ending import end
from celltools.common.repository import ROOT, built, shipped
from celltools.common.words import Words, file_name, number

TABLE = ROOT / "tests" / "deletions.table"
FLAWS = ("race", "stuck", "fault", "halt")
IN_SOME = re.compile(rf"(?:{'|'.join(FLAWS)}) \d+ of \d+")
ROW = re.compile(r"(\S+) (\S+):(\d+) \| (.*?) \| (.*)")
NOTHING = 0.5  # runs that count for none
RUNS = 1000
Found = Tuple[str, List[int]]  # a mutant's place, and of each hunt how many runs find it


def deletions_module() -> ModuleType:
    """What tests/hunt_deletions makes its mutants with. The folder tests/lib has the name of this one's lib."""
    spec = importlib.util.spec_from_file_location("deletions", ROOT / "tests" / "lib" / "deletions.py")
    assert spec is not None and spec.loader is not None
    module = importlib.util.module_from_spec(spec)
    sys.modules["deletions"] = module
    spec.loader.exec_module(module)
    return module


def finds_of(hunt: pathlib.Path, machine: pathlib.Path, asked: argparse.Namespace) -> int:
    """How many runs have what most runs have of the flaws."""
    words = [str(hunt), str(machine), "--runs", str(asked.runs), "--seed", str(asked.seed), "--jobs", "1", "--json"]
    head = json.loads(subprocess.run(words, cwd=ROOT, capture_output=True, check=False).stdout.split(b"\n", 1)[0])
    return int(max(head[flaw]["runs"] for flaw in FLAWS))


def measured(row: Sequence[str], hunts: Sequence[pathlib.Path], asked: argparse.Namespace, deletions: ModuleType) -> Found:
    """A row's mutant, hunted with each hunt."""
    machine, source, line, text, _ = row
    with tempfile.TemporaryDirectory() as folder:
        mutant = deletions.write_without(deletions.Deletion(machine, source, int(line), text), pathlib.Path(folder))
        return f"{machine} {source}:{line}", [finds_of(hunt, mutant, asked) for hunt in hunts]


def mean(ratios: Sequence[float]) -> str:
    """The geometric mean, and of how many."""
    return f"{math.exp(sum(map(math.log, ratios)) / len(ratios)):.2f} ({len(ratios)} mutants)" if ratios else "no mutant"


def print_means(results: Sequence[Found], hunts: Sequence[pathlib.Path], runs: int) -> None:
    for place, hunt in enumerate(hunts[1:], 1):
        missed = [finds for _, finds in results if min(finds[0], finds[place]) < runs]
        pairs = [(finds[place], max(finds[0], NOTHING) / max(finds[place], NOTHING)) for finds in missed]
        rare = [ratio for finds, ratio in pairs if finds <= runs / 2]
        print(f"{hunt}: {mean([ratio for _, ratio in pairs])} times the runs a find; {mean(rare)} where at most half of its runs find the bug")


def main(words: List[str]) -> int:
    reader = Words(__doc__)
    reader.add_argument("--runs", type=number, default=RUNS)
    reader.add_argument("--seed", type=number, default=1)
    reader.add_argument("programs", nargs="+", type=file_name)
    asked = reader.read(words, 1)
    own = built("hunt") if built("hunt").exists() else shipped("hunt")
    hunts = [own, *(pathlib.Path(os.path.abspath(program)) for program in asked.programs)]
    rows = [row.groups() for row in map(ROW.fullmatch, TABLE.read_text().splitlines()) if row and IN_SOME.search(row[5])]
    deletions = deletions_module()
    results = []
    for row in rows:
        results.append(measured(row, hunts, asked, deletions))
        print(f"{results[-1][0]:48}", *(f"{finds:6}" for finds in results[-1][1]), flush=True)
    print_means(results, hunts, asked.runs)
    return 0


if __name__ == "__main__":
    end(main)
