#!/usr/bin/env python3
"""Measures how many runs and steps a hunt needs to find a bug, for each program of a suite of bugs that only some schedules show (bench/lib/suite.py).

Usage: bench/finding.py [--seed S] [--finds N] [--seconds X] [--only TEXT].. [--clean] [PROGRAM..]
       bench/finding.py --check [--seed S] [--only TEXT]..
       bench/finding.py --write FOLDER [--only TEXT]..

It measures the hunt of this clone, and each PROGRAM, such as the bin/hunt of an older commit (not ./hunt, whose start counts as processor time). A line for each
program of the suite, or for those whose names have a TEXT, has for each hunt: the runs a find, the steps a find, the runs, the finds, and the spent budgets that
are no find. `>N` means that N runs found nothing, which the means count as half a find. The last lines have, for each group of programs and for all:

  - the geometric means of the runs and of the steps that this clone's hunt needs for a find
  - for each PROGRAM, by how much this clone's hunt is better: the geometric means of its runs and steps a find divided by those of this clone's, without the
    programs in which neither finds anything
  - how many programs this clone's hunt got more than 5 times worse in: it needs more than 5 times the runs

A find is a run with an SPU that stops with 0x0bad, halts or faults, a deadlock, or, if the machine file says `# bug: budget`, a spent budget. A data race
alone is none. A measurement ends after N finds (16), X seconds of processor time (5), or 5 million steps. A figure of 16 finds is right within about a quarter,
one of 3 finds within a factor of two. How many steps a run has is the mean of the first 44, by `record`, whose time doesn't count. Runs are made on one thread,
by the numbers from 0 on, in multiples of 44, so that each scheduling strategy gets its share.

  --clean         hunt the programs without a bug instead, for as many runs as the time and the steps allow: no run may spend its budget
  --check         200 runs of each program: every one has to be accepted, a bug that is common has to be found, and a program without a bug has to have no
                  finding at all, not even a race; the exit status is 1 if that isn't so
  --write FOLDER  write the programs into a folder, to hunt and debug them one by one
"""
import celltools.common.starting  # noqa: F401  (before all others)

import argparse
import dataclasses
import json
import math
import os
import pathlib
import subprocess
import sys
import tempfile
from typing import Dict, Iterable, List, Sequence, Tuple

from celltools.common.ending import end
from celltools.common.repository import ROOT, built, shipped
from celltools.common.words import Words, file_name, number
from celltools.hunt.endings import SPENT, STUCK, end_word, has_fault, has_halt
from lib import suite
from lib.measuring import Path, usage_of

BLOCK = 44  # runs: a multiple of the number of scheduling strategies
MOST_STEPS = 5_000_000  # of a measurement
FINDS, SECONDS, CHECKED = 16, 5.0, 200
NOTHING = 0.5  # finds that count for none
WORSE = 5
FOUND = 0, 1  # the exit statuses of a hunt
BAD = "stopped 0x0bad"
ENDINGS = b'{"end":', b'{"number":'  # how the lines of endings begin, without and with the names of sources
Suite = Dict[pathlib.Path, suite.Named]  # by machine files


@dataclasses.dataclass
class Measured:
    """What a hunt made of a program."""
    steps_of_run: float
    runs: int = 0
    finds: int = 0
    spent: int = 0
    seconds: float = 0.0

    @property
    def runs_of_find(self) -> float:
        return self.runs / (self.finds or NOTHING)

    @property
    def steps_of_find(self) -> float:
        return self.runs_of_find * self.steps_of_run

    def next_block(self, finds: int, seconds: float) -> int:
        """How many runs to make next, in multiples of BLOCK; 0 if the measurement is over. They double, as far as finds, time and steps are left."""
        steps = MOST_STEPS - self.runs * self.steps_of_run
        if self.finds >= finds or self.seconds >= seconds or steps <= 0:
            return 0
        left = [float(self.runs), steps / self.steps_of_run]
        if self.finds:
            left.append((finds - self.finds) * self.runs / self.finds)
        if self.seconds:
            left.append((seconds - self.seconds) * self.runs / self.seconds)
        return BLOCK * max(1, math.ceil(min(left) / BLOCK))

    def text(self) -> str:
        more = "" if self.finds else ">"
        runs = self.runs_of_find if self.finds else self.runs
        return f"{more + short(runs):>10} {more + short(runs * self.steps_of_run):>10} {self.runs:>8} {self.finds:>6} {self.spent:>6}"


def short(value: float) -> str:
    """A figure with three digits, or with all of its whole ones."""
    return f"{value:,.0f}" if value >= 100 else f"{value:.3g}"


def is_find(ending: str, is_spent: bool) -> bool:
    """Whether a run that ends so has the bug; `is_spent` if the bug is a spent budget."""
    word = end_word(ending)
    return BAD in ending or has_halt(ending) or has_fault(ending) or word == STUCK or is_spent and word == SPENT


def steps_of(hunt: Path, machine: Path, seed: int) -> float:
    """How many steps a run has in the mean."""
    total = 0
    for run in range(BLOCK):
        record = subprocess.run([hunt, machine, "record", str(run), "--seed", str(seed)], cwd=ROOT, capture_output=True, check=True).stdout
        total += int(record.split(b"\nsteps ", 1)[1].split(b"\n", 1)[0])
    return total / BLOCK


def command_of(hunt: Path, machine: Path, first: int, runs: int, seed: int) -> List[Path]:
    return [hunt, machine, "--from", str(first), "--runs", str(runs), "--seed", str(seed), "--jobs", "1", "--json"]


def endings_in(report: Iterable[bytes]) -> Dict[str, int]:
    """The endings in a report, each with its number of runs."""
    endings = [json.loads(line) for line in report if line.startswith(ENDINGS)]
    return {ending["end"]: ending["runs"] for ending in endings}


def hunted(hunt: Path, machine: Path, first: int, runs: int, seed: int) -> Tuple[Dict[str, int], float]:
    """The endings of some runs, and the processor time in seconds."""
    with tempfile.TemporaryFile() as output:
        _, seconds, _ = usage_of(command_of(hunt, machine, first, runs, seed), FOUND, output)
        output.seek(0)
        return endings_in(output), seconds


def measured(hunt: Path, machine: Path, is_spent: bool, asked: argparse.Namespace) -> Measured:
    """Hunts a program until there are enough finds, or the time or the steps are used up."""
    found = Measured(steps_of(hunt, machine, asked.seed))
    runs = BLOCK
    while runs:
        endings, seconds = hunted(hunt, machine, found.runs, runs, asked.seed)
        found.runs += runs
        found.seconds += seconds
        for ending, count in endings.items():
            if is_find(ending, is_spent):
                found.finds += count
            elif end_word(ending) == SPENT:
                found.spent += count
        runs = found.next_block(asked.finds, asked.seconds)
    return found


# ---- the means

def mean(values: Sequence[float]) -> float:
    """The geometric mean."""
    return math.exp(sum(map(math.log, values)) / len(values))


def compared(old: int, names: Sequence[str], results: Sequence[Sequence[Measured]]) -> str:
    """How much better this clone's hunt, the first one, does with some programs than another one."""
    pairs = [(name, result[old], result[0]) for name, result in zip(names, results) if result[old].finds or result[0].finds]
    if not pairs:
        return f"hunt {old}: no find to compare"
    runs = mean([other.runs_of_find / own.runs_of_find for _, other, own in pairs])
    steps = mean([other.steps_of_find / own.steps_of_find for _, other, own in pairs])
    worse = [name for name, other, own in pairs if own.runs_of_find > WORSE * other.runs_of_find]
    missed = sum(not result[old].finds for result in results)
    return (f"hunt {old}: {runs:.2f} times the runs and {steps:.2f} times the steps a find; {missed} of {len(names)} not found; "
            f"more than {WORSE} times worse now: {len(worse)}{' (' + ', '.join(worse) + ')' if worse else ''}")


def summary(names: Sequence[str], results: Sequence[Sequence[Measured]]) -> List[str]:
    """The means of some programs."""
    runs, steps = (mean([getattr(result[0], figure) for result in results]) for figure in ("runs_of_find", "steps_of_find"))
    missed = sum(not result[0].finds for result in results)
    first = f"{short(runs)} runs and {short(steps)} steps a find; {missed} of {len(names)} not found"
    return [first, *(compared(old, names, results) for old in range(1, len(results[0])))]


def print_means(programs: Suite, results: Sequence[Sequence[Measured]]) -> None:
    for group, meaning in {**suite.GROUPS, "all": ""}.items():
        chosen = [(named.name, result) for named, result in zip(programs.values(), results) if group in (named.group, "all")]
        if chosen:
            print(f"{group}{' (' + meaning + ')' if meaning else ''}: " + "\n    ".join(summary(*zip(*chosen))))


def print_head(hunts: Sequence[Path], asked: argparse.Namespace) -> None:
    print(f"seed {asked.seed}, up to {asked.finds} finds, {asked.seconds:g} seconds or {MOST_STEPS:,} steps; "
          f"{os.getloadavg()[0]:.1f} others run or wait for {os.cpu_count()} cores")
    for place, hunt in enumerate(hunts):
        print(f"hunt {place}: {hunt}")
    print(f"{'':22}" + " |".join(f"{'runs':>10} {'steps':>10} {'':>8} {'':>6} {f'hunt {place}':>6}" for place in range(len(hunts))))
    print(f"{'program':22}" + " |".join(f"{'a find':>10} {'a find':>10} {'runs':>8} {'finds':>6} {'spent':>6}" for _ in hunts), flush=True)


def measure(programs: Suite, asked: argparse.Namespace) -> int:
    """Measures the programs with each hunt in turn, and prints the table and the means."""
    hunts: List[Path] = [this_hunt(), *(os.path.abspath(program) for program in asked.programs)]
    print_head(hunts, asked)
    results = []
    for machine, named in programs.items():
        results.append([measured(hunt, machine, named.program.is_spent, asked) for hunt in hunts])
        print(f"{named.name:22}" + " |".join(one.text() for one in results[-1]), flush=True)
    if asked.clean:
        return report_clean(results)
    print_means(programs, results)
    return 0


def report_clean(results: Sequence[Sequence[Measured]]) -> int:
    """Prints how many runs of the programs without a bug spend their budget or have a finding, and returns 0 if none does."""
    wrong = 0
    for place, of_hunt in enumerate(zip(*results)):
        runs, spent, finds = (sum(getattr(one, name) for one in of_hunt) for name in ("runs", "spent", "finds"))
        print(f"hunt {place}: {spent} of {runs} runs spend their budget, {finds} have a finding")
        wrong += spent + finds
    return int(wrong > 0)


# ---- the check

def why_wrong(machine: Path, named: suite.Named, seed: int) -> str:
    """What is wrong with a program of the suite, by a hunt of CHECKED runs; empty if nothing is."""
    done = subprocess.run(command_of(this_hunt(), machine, 0, CHECKED, seed), cwd=ROOT, capture_output=True)
    if done.returncode not in FOUND:
        return f"refused with exit status {done.returncode}: {os.fsdecode(done.stderr).strip()}"
    is_spent = named.is_clean or named.program.is_spent
    finds = sum(runs for ending, runs in endings_in(done.stdout.splitlines()).items() if is_find(ending, is_spent))
    if named.is_clean and (finds or done.returncode):
        return f"{finds} of {CHECKED} runs have a finding" if finds else "it has a data race"
    return "" if finds or named.name not in suite.COMMON else f"{CHECKED} runs don't find its bug"


def check(programs: Suite, seed: int) -> int:
    """Hunts each program for some runs, and prints those that aren't as they should be."""
    wrong = 0
    for machine, named in programs.items():
        why = why_wrong(machine, named, seed)
        if why:
            wrong += 1
            print(f"{named.name}: {why}", flush=True)
    print(f"{len(programs)} programs, {wrong} wrong")
    return int(wrong > 0)


# ---- the command line

def this_hunt() -> pathlib.Path:
    """The hunt of this clone: built, or else shipped."""
    return built("hunt") if built("hunt").exists() else shipped("hunt")


def seconds_of(word: str) -> float:
    try:
        value = float(word)
    except ValueError:
        value = 0.0
    if not 0 < value < math.inf:
        raise argparse.ArgumentTypeError(f"`{word}` is no time in seconds")
    return value


def main(words: List[str]) -> int:
    reader = Words(__doc__)
    reader.add_argument("--seed", type=number, default=1)
    reader.add_argument("--finds", type=number, default=FINDS)
    reader.add_argument("--seconds", type=seconds_of, default=SECONDS)
    reader.add_argument("--only", action="append")
    reader.add_argument("--clean", action="store_true")
    reader.add_argument("--check", action="store_true")
    reader.add_argument("--write", type=file_name)
    reader.add_argument("programs", nargs="*", type=file_name, default=[])
    asked = reader.read(words, 0)
    every = [*suite.with_bug(), *suite.without_bug()]
    chosen = [named for named in every if asked.check or asked.write or named.is_clean == asked.clean]
    chosen = [named for named in chosen if not asked.only or any(text in named.name for text in asked.only)]
    if not chosen:
        sys.exit("no program of the suite has such a name")
    with tempfile.TemporaryDirectory() as temporary:
        folder = pathlib.Path(asked.write or temporary).resolve()
        folder.mkdir(exist_ok=True)
        programs = {suite.write(folder, named): named for named in chosen}
        if asked.write:
            print(f"{len(programs)} programs in {asked.write}")
            return 0
        return check(programs, asked.seed) if asked.check else measure(programs, asked)


if __name__ == "__main__":
    end(main)
