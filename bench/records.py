#!/usr/bin/env python3
"""Measures records of both formats.

Usage: bench/records.py [OTHER]

Of runs of a million steps it prints how many bytes the record has, what the run takes, files in and texts out, and what the check of its output takes; and
of the same steps as a record of format 1 the bytes and the time of the check. OTHER is another program, such as that of an earlier state, of which the time
of the run is measured in turn. Each time is the best of RUNS, in seconds.
"""
import celltools.common.starting  # noqa: F401  (before all others)

import pathlib
import subprocess
import tempfile
from typing import List, Sequence

from celltools.common.ending import end
from celltools.common.repository import ROOT, built
from celltools.common.words import Words
from celltools.run.records import steps_in
from lib.measuring import STEPS, Path, usage_of

CELL = built("cell_cli")
RUNS = 7
MACHINES = [("arithmetic.s", 1, 1), ("arithmetic.s", 8, 1), ("transfer.s", 8, 128)]


def in_format_1(output: str) -> str:
    """The output of a run with its record in format 1."""
    _, end, states = output.partition("\nsteps ")
    return "\n".join(["cell-record 1", *steps_in(output)]) + end + states


def record_bytes(output: str) -> int:
    """How many bytes the record in an output has."""
    return output.index("\nend ") + 1


def best(*commands: Sequence[Path]) -> List[float]:
    """The best time of each of the commands, which are run in turn."""
    times = [[usage_of(command, (0, 1), errors=subprocess.DEVNULL)[0] for command in commands] for _ in range(RUNS)]
    return [min(column) for column in zip(*times)]


def main(words: List[str]) -> int:
    reader = Words(__doc__)
    reader.add_argument("others", nargs="*")
    others = reader.read(words, 0).others[:1]
    with tempfile.TemporaryDirectory(prefix="cell-bench-") as room:
        folder = pathlib.Path(room)
        for source, spes, lines in MACHINES:
            machine, second, first = folder / "m", folder / "second", folder / "first"
            machine.write_text(f"cell-machine 1\nlines {lines}\nbudget {STEPS}\n" + f"spe\nsource bench/{source}\n" * spes)
            output = subprocess.run([CELL, "run", machine], cwd=ROOT, capture_output=True, text=True, check=True).stdout
            second.write_text(output)
            first.write_text(in_format_1(output))
            runs = best(*([program, "run", machine] for program in (CELL, *others)))
            checks = best([CELL, "check", machine, second], [CELL, "check", machine, first])
            print(f"{source} on {spes}: run {' and '.join(f'{it:.3f}' for it in runs)}; format 2 {record_bytes(output)} bytes, check {checks[0]:.3f}; "
                  f"format 1 {record_bytes(first.read_text())} bytes, check {checks[1]:.3f}")
    return 0


if __name__ == "__main__":
    end(main)
