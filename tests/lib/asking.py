"""Asks the proved programs about runs, in a folder that has the machine file and the record."""
import subprocess
from typing import List, Sequence, Tuple

from celltools.common.repository import built
from celltools.run.effects import Trace
from celltools.run.runs import Path
from lib.order_rules import trace_of_lines

TRACER = built("run_trace")
CELL = built("cell_cli")
SECONDS = 60

Answer = Tuple[str, str, int]  # what is written to the output and as an error, and the status


def output(words: Sequence[Path], folder: Path) -> str:
    """What run_trace prints."""
    done = subprocess.run([TRACER, *words], cwd=folder, capture_output=True, text=True, timeout=SECONDS)
    if done.returncode:
        raise RuntimeError(f"run_trace {' '.join(map(str, words))}: {done.stderr}")
    return done.stdout


def said_of(folder: Path, *words: object) -> Answer:
    """What `cell` writes, to its output and as its error, and its status."""
    done = subprocess.run([CELL, *map(str, words)], cwd=folder, capture_output=True, text=True, timeout=SECONDS)
    return done.stdout, done.stderr, done.returncode


def places_in(line: str) -> int:
    """The places that are ordered before one, as bits, from its line of `before`."""
    ranges = (map(int, words.split()) for words in line.split(" | ")[1:])
    return sum((1 << last + 1) - (1 << first) for first, last in ranges)


def trace_of(folder: Path, machine: Path, record: Path) -> Tuple[Trace, List[int]]:
    """The trace of a run, and of each place the places that the orderer has before it, as bits."""
    before = [places_in(line) for line in output(["before", machine, record], folder).splitlines()]
    return trace_of_lines(output(["effects", machine, record], folder).splitlines()), before
