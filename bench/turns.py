#!/usr/bin/env python3
"""Measures how turns go round in `cell run`.

Usage: bench/turns.py [RUNS]   (100 runs where no number is given)

Programs that poll, and programs whose race shows only in some orders, are run again and again; once more with all threads on one core. It prints of each how the
runs ended, their fewest and most steps, how many records differ, and in how many `check` finds a race.
"""
import celltools.common.starting  # noqa: F401  (before all others)

import collections
import os
import pathlib
import subprocess
import tempfile
from typing import Dict, List, Optional, Set, Tuple

from celltools.common.ending import end
from celltools.common.repository import ROOT, built
from celltools.common.words import Words, number
from lib.machines import numbered
from lib.measuring import Path

CELL = built("cell_cli")
MACHINES = {
    "eight that poll a barrier (bench/barrier.s)": numbered("barrier.s", 1_000_000, 3),
    "a tree that polls (bench/tree.s)": numbered("tree.s", 1_000_000, 8),
    "one that polls a count (bench/poll.s)": "cell-machine 1\nlines 1\nbudget 1000000\nspe\nsource bench/poll.s\n",
}
EXAMPLES = ["counter", "races/slowpath_race", "races/mutex_lost_race", "races/mutex_taken_race", "races/rwlock_leave_race"]


def run_of(machine: Path, output: pathlib.Path, cores: Optional[str]) -> Tuple[str, bytes, bool]:
    """The end word, the record and whether it has a race, of one run."""
    words: List[Path] = ["taskset", "-c", cores, CELL] if cores else [CELL]
    with open(output, "wb") as file:
        subprocess.run([*words, "run", machine], cwd=ROOT, stdout=file, check=True)
    record, states = output.read_bytes().split(b"\nend ", 1)
    verdict = subprocess.run([CELL, "check", machine, output], cwd=ROOT, capture_output=True)
    return states.split(b"\n", 1)[0].decode(), record, verdict.stdout.startswith(b"race")


def report(title: str, machine: Path, output: pathlib.Path, runs: int, cores: Optional[str]) -> None:
    ends: Dict[str, int] = collections.Counter()
    steps: List[int] = []
    records: Set[bytes] = set()
    races = 0
    for _ in range(runs):
        end, record, is_race = run_of(machine, output, cores)
        ends[end] += 1
        steps.append(record.count(b"\n") - 1)
        records.add(record)
        races += is_race
    print(f"{title}: {dict(ends)}, {min(steps)} to {max(steps)} steps, {len(records)} different records, {races} with a race", flush=True)


def main(words: List[str]) -> int:
    reader = Words(__doc__)
    reader.add_argument("runs", type=number, nargs="?", default=100)
    runs = reader.read(words, 0).runs
    with tempfile.TemporaryDirectory() as room:
        folder = pathlib.Path(room)
        machines: Dict[str, Path] = {f"examples/{name}.cell": f"examples/{name}.cell" for name in EXAMPLES}
        for place, (title, text) in enumerate(MACHINES.items()):
            (folder / f"{place}.cell").write_text(text)
            machines[title] = folder / f"{place}.cell"
        for cores in (None, "0"):
            print(f"on {'one core' if cores else f'{os.cpu_count()} cores'}, {runs} runs of each:")
            for title, machine in machines.items():
                report(title, machine, folder / "output", runs, cores)
    return 0


if __name__ == "__main__":
    end(main)
