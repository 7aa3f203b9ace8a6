#!/usr/bin/env python3
"""Measures `cell debug`.

Usage: bench/debug.py

Of scripts over a machine of eight processors (bench/transfer.s) it prints the seconds, files in and text out, less those of an empty script: 10,000 lines that
make a turn each, such lines with one that prints between any two, and one line that makes many turns. Each time is the best of RUNS.
"""
import celltools.common.starting  # noqa: F401  (before all others)

import pathlib
import tempfile
from typing import List

from celltools.common.ending import end
from celltools.common.repository import built
from lib.measuring import called, measured

CELL = built("cell_cli")
LINES = 10_000
SPES = 8
MACHINE = "cell-machine 1\nlines 128\nbudget 1000000\n" + "spe\nsource bench/transfer.s\n" * SPES


def turns(count: int) -> List[str]:
    """Lines that make a turn each, of the processors and of the flow controllers one after the other."""
    return [f"step {'xm'[k // SPES % 2]} {k % SPES} {k} 1\n" for k in range(count)]


SCRIPTS = {
    f"{LINES} lines `step`": turns(LINES),
    f"{LINES // 2} lines `step` and as many `spe`": [line for pair in zip(turns(LINES // 2), ("spe 0\n",) * LINES) for line in pair],
    f"{LINES // 2} lines `step` and as many `dis`": [line for pair in zip(turns(LINES // 2), ("dis 0 0 1\n",) * LINES) for line in pair],
    f"`until` with {LINES} turns": [f"until 0 0x3fffc {LINES}\n"],
    "`until` with 1000000 turns": ["until 0 0x3fffc 1000000\n"],
}


def main(words: List[str]) -> int:
    called(__doc__, words)
    with tempfile.TemporaryDirectory(prefix="cell-bench-") as room:
        machine, script = pathlib.Path(room) / "m", pathlib.Path(room) / "script"
        machine.write_text(MACHINE)
        script.write_text("")
        start, _ = measured(["debug", machine, script], program=CELL)
        print(f"an empty script: {start:.3f} s")
        for name, lines in SCRIPTS.items():
            script.write_text("".join(lines))
            print(f"{name}: {measured(['debug', machine, script], program=CELL)[0] - start:.3f} s")
    return 0


if __name__ == "__main__":
    end(main)
