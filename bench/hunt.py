#!/usr/bin/env python3
"""Measures hunts on one, two and four threads, with other programs beside or in place of this one, in turn.

Usage: bench/hunt.py [--jobs N,..] [--times N] [--only TEXT].. [PROGRAM..]

Of each hunt, or of those whose names have a TEXT, it prints the time on the clock and of processors, the best of five or N; what that is a run; how many steps a
second are made and searched, and how many times those of one thread; and the greatest memory, also by the thread. How many steps a run has is the mean of the
first 200. The clock says something only where there is a core for each thread: how many others want one is told first. Behind that stands how many times the
steps of one thread the machine itself lets be made: by so many hunts of one thread each, which share nothing, at the same time.
"""
import celltools.common.starting  # noqa: F401  (before all others)

import argparse
import math
import os
import pathlib
import subprocess
import sys
import tempfile
import time
from typing import List, Optional, Tuple

from celltools.common.ending import end
from celltools.common.repository import ROOT, built
from celltools.common.words import Words, number
from lib.machines import numbered
from lib.measuring import Path, peak_of, usage_of

HUNT = built("hunt")
TIMES = 5
THREADS = 1, 2, 4
COUNTED = 200
FOUND = 0, 1  # the statuses of a hunt
HUNTS = {
    "examples/races/slowpath.cell": 20_000,
    "examples/races/slowpath_race.cell": 20_000,
    "examples/races/mutex.cell": 4000,
    "examples/races/mutex_lost_race.cell": 4000,
    "examples/races/stream3.cell": 8000,
}
POLLING = {"bench/barrier.s on eight": (numbered("barrier.s", 1_000_000, 3), 200), "bench/tree.s on eight": (numbered("tree.s", 1_000_000, 8), 400)}


def steps_of_run(machine: Path, run: int) -> int:
    record = subprocess.run([HUNT, machine, "record", str(run)], cwd=ROOT, capture_output=True, check=True).stdout
    return int(record.split(b"\nsteps ", 1)[1].split(b"\n", 1)[0])


def words_of(program: Path, machine: Path, runs: int, jobs: int) -> List[Path]:
    return [program, machine, "--runs", str(runs), "--jobs", str(jobs)]


def clock_apart(program: Path, machine: Path, runs: int, jobs: int) -> float:
    """How long so many hunts of one thread take that begin together, each of so many runs."""
    start = time.monotonic()
    hunts = [subprocess.Popen([*words_of(program, machine, runs, 1), "--from", str(runs * number)], stdout=subprocess.DEVNULL, cwd=ROOT) for number in range(jobs)]
    if any(hunt.wait() not in FOUND for hunt in hunts):
        sys.exit(f"{program} {machine} failed")
    return time.monotonic() - start


def tell(title: str, runs: int, steps: float, jobs: int, times: Tuple[float, float], of_one: Optional[float], apart: float, memory: int) -> None:
    clock, used = times
    faster = f", {of_one / clock:.2f} times those of one thread, and {jobs * of_one / apart:.2f} apart" if of_one and jobs > 1 else ""
    print(f"{title} on {jobs}: {runs} runs of {steps:.0f} steps in the mean: {clock:.2f} s on the clock, {used:.2f} of processors, "
          f"{1e6 * used / runs:.0f} microseconds a run, {steps * runs / clock / 1e6:.2f} million steps a second{faster}, "
          f"{memory / 1024:.1f} MiB, {memory / 1024 / jobs:.1f} a thread", flush=True)


def report(title: str, machine: Path, runs: int, asked: argparse.Namespace) -> None:
    """Measures the programs and the numbers of threads in turn, so that a slow minute falls on each of them."""
    if asked.only and not any(text in title for text in asked.only):
        return
    counted = min(runs, COUNTED)
    steps = sum(steps_of_run(machine, run) for run in range(counted)) / counted
    commands = {(program, jobs): words_of(program, machine, runs, jobs) for program in asked.programs for jobs in asked.jobs}
    rounds, apart = [], dict.fromkeys(commands, math.inf)
    for _ in range(asked.times):
        rounds.append({key: usage_of(command, FOUND)[:2] for key, command in commands.items()})
        for program, jobs in commands:
            if jobs > 1:
                apart[program, jobs] = min(apart[program, jobs], clock_apart(program, machine, runs, jobs))
    for (program, jobs), command in commands.items():
        of_one = min(one[program, 1][0] for one in rounds) if 1 in asked.jobs else None
        times = min(one[program, jobs][0] for one in rounds), min(one[program, jobs][1] for one in rounds)
        tell(f"{program}: {title}", runs, steps, jobs, times, of_one, apart[program, jobs], peak_of(command, FOUND))


def numbers(word: str) -> List[int]:
    return [number(part) for part in word.split(",")]


def main(words: List[str]) -> int:
    reader = Words(__doc__)
    reader.add_argument("--jobs", type=numbers, default=THREADS)
    reader.add_argument("--times", type=number, default=TIMES)
    reader.add_argument("--only", action="append")
    reader.add_argument("programs", nargs="*", default=[HUNT])
    asked = reader.read(words, 0)
    print(f"{os.getloadavg()[0]:.1f} others run or wait for a core, of which there are {os.cpu_count()}")
    for machine, runs in HUNTS.items():
        report(machine, machine, runs, asked)
    with tempfile.TemporaryDirectory() as folder:
        for place, (title, (text, runs)) in enumerate(POLLING.items()):
            file = pathlib.Path(folder) / f"{place}.cell"
            file.write_text(text)
            report(title, file, runs, asked)
    return 0


if __name__ == "__main__":
    end(main)
