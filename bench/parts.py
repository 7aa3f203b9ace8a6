#!/usr/bin/env python3
"""What it takes to make a part of a hunt whose runs have different results, and to add it up.

Usage: bench/parts.py [RUNS]   (1,000,000 unless another number is given)

The lines that the program of ./hunt would print are invented: each run has a result of its own, of 47 characters, and a class of its own, and all runs end alike,
on 2, 6 and 16 processors. For each it prints the bytes of these lines, the bytes of the part that tools/site_lines makes of them, and the processor time and memory
of tools/site_lines, of tools/hunts, and of tools/hunts --json, whose output has to be the part again.
"""
import celltools.common.starting  # noqa: F401  (before all others)

import os
import pathlib
import random
import subprocess
import sys
import tempfile
from typing import Iterator, List

from celltools.common.ending import end
from celltools.common.repository import ROOT
from celltools.common.words import Words, number
from lib.measuring import usage_of

MACHINE = "examples/races/mail_race.cell"
PROCESSORS = (2, 6, 16)
RUNS = 1_000_000
NONE = '{"runs":0,"first":null}'
FLAWS = ("race", "stuck", "livelock", "budget", "fault", "halt", "missed")


def lines(runs: int, spes: int) -> Iterator[str]:
    """What the program prints of such a hunt."""
    chance = random.Random(spes)
    ending = "AllStopped" + "".join(f" | {spe} stopped 0x0001" for spe in range(spes))
    flaws = "".join(f',"{flaw}":{NONE}' for flaw in FLAWS)
    yield f'{{"hunt":1,"seed":1,"from":0,"runs":{runs},"expects":false,"all_stopped":{runs},"left_out":0,"steps":{1000 * runs}{flaws}}}\n'
    yield f'{{"end":"{ending}","runs":{runs},"first":0}}\n'
    for run in range(runs):
        yield f'{{"result":"mem 0x00000000 {chance.getrandbits(128):032x}\\u000a","end":"{ending}","runs":1,"first":{run}}}\n'
    yield '{"kinds":{' + ",".join(f'"{chance.getrandbits(64)}":1' for _ in range(runs)) + "}}\n"


def measured(words: List[str], given: pathlib.Path, output: pathlib.Path) -> str:
    """The processor time and the memory of a tool."""
    with open(given, "rb") as standard_input, open(output, "wb") as file:
        _, seconds, memory = usage_of([ROOT / "tools" / words[0], *words[1:]], output=file, standard_input=standard_input)
    return f"{' '.join(words)}: {seconds:.1f} s, {memory / 1024:.0f} MiB"


def main(words: List[str]) -> int:
    reader = Words(__doc__)
    reader.add_argument("runs", type=number, nargs="?", default=RUNS)
    runs = reader.read(words, 0).runs
    with tempfile.TemporaryDirectory(prefix="cell-bench-") as folder:
        printed, part, added = (pathlib.Path(folder, name) for name in ("printed", "part", "added"))
        for spes in PROCESSORS:
            with open(printed, "w") as file:
                file.writelines(lines(runs, spes))
            took = [measured(["site_lines", "--json", MACHINE], printed, part), measured(["hunts", "-"], part, pathlib.Path(os.devnull)),
                    measured(["hunts", "--json", "-"], part, added)]
            before, after = printed.stat().st_size, part.stat().st_size
            print(f"{spes} processors, {runs} runs: {before} bytes are {after} in the part, {after / before:.2f}", *took, sep="\n    ", flush=True)
            if subprocess.run(["cmp", part, added]).returncode:
                sys.exit("the part added up is another")
    return 0


if __name__ == "__main__":
    end(main)
