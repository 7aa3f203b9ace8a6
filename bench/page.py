#!/usr/bin/env python3
"""Measures the WebAssembly module beside the programs, in turn.

Usage: bench/page.py [MODULE]   (page/cell.wasm where none is named)

Of the check of a million steps, and of hunts, it prints the processor time of the program and of the module in node, each the best of five, how many times the
one is the other, the same of the greatest memory, and what the module's first answer took on the clock: an engine compiles a function well only when it ran for
a while.
"""
import celltools.common.starting  # noqa: F401  (before all others)

import dataclasses
import pathlib
import subprocess
import tempfile
from typing import Dict, List, Tuple

from celltools.common.ending import end
from celltools.common.repository import ROOT, built
from celltools.common.words import Words, file_name
from lib.machines import LINES, SPES, machine_file
from lib.measuring import STEPS, recorded, usage_of

MODULE = ROOT / "page" / "cell.wasm"
TIMES = 5
FEW_STEPS, RUNS, MANY_RUNS = 20_000, 20, 4000
CHECKED = {"bench/arithmetic.s": 1, "bench/transfer.s": SPES}  # on how many processors
HUNTED = {"bench/transfer.s": SPES, "bench/lists.s": SPES}
EXAMPLES = ("examples/races/list.cell", "examples/races/stream3.cell", "examples/races/mail_race.cell")
CELL, HUNT = built("cell_cli"), built("hunt")
MEBI, KIBI = 1 << 20, 1 << 10


@dataclasses.dataclass(frozen=True)
class Took:
    """What an answer took: seconds of the processor and on the clock, and bytes of memory."""

    used: float
    clock: float
    memory: int


def questions_in(folder: str) -> Dict[str, List[str]]:
    """What is asked, by titles: words of the module, whose files are named as they lie."""
    asked: Dict[str, List[str]] = {}
    for source, spes in CHECKED.items():
        machine = machine_file(folder, source, STEPS, spes, LINES)
        asked[f"check of a million steps of {source} on {spes}"] = ["check", str(machine), str(recorded(machine))]
    for source, spes in HUNTED.items():
        asked[f"{RUNS} runs of {FEW_STEPS} steps of {source} on {spes}"] = ["hunt", str(machine_file(folder, source, FEW_STEPS, spes, LINES)), str(RUNS)]
    for machine_name in EXAMPLES:
        asked[f"{MANY_RUNS} runs of {machine_name}"] = ["hunt", machine_name, str(MANY_RUNS)]
    return asked


def by_program(words: List[str]) -> Took:
    command = [str(HUNT), *words[1:], "--jobs", "1"] if words[0] == "hunt" else [str(CELL), *words]
    clock, used, memory = usage_of(command, (0, 1))
    return Took(used, clock, memory * KIBI)


def by_module(node: "subprocess.Popen[str]") -> Took:
    assert node.stdin and node.stdout
    node.stdin.write("\n")
    node.stdin.flush()
    clock, used, memory = node.stdout.readline().split()
    return Took(float(used), float(clock), int(memory))


def measured(module: pathlib.Path, words: List[str]) -> Tuple[List[Took], List[Took]]:
    """What the program and the module take, asked in turn, so that a slow minute falls on both."""
    command = ["node", str(ROOT / "bench" / "page.js"), str(module), *words]
    with subprocess.Popen(command, cwd=ROOT, stdin=subprocess.PIPE, stdout=subprocess.PIPE, text=True) as node:
        rows = [(by_program(words), by_module(node)) for _ in range(TIMES)]
        assert node.stdin
        node.stdin.close()
    return [program for program, _ in rows], [page for _, page in rows]


def report(title: str, programs: List[Took], pages: List[Took]) -> None:
    program, page = min(took.used for took in programs), min(took.used for took in pages)
    memory, page_memory = max(took.memory for took in programs), max(took.memory for took in pages)
    print(f"{title}: program {program:.2f} s, module {page:.2f} s, {page / program:.2f} times; {memory / MEBI:.1f} MiB and {page_memory / MEBI:.1f} MiB, "
          f"{page_memory / memory:.2f} times; the module's first answer {pages[0].clock:.2f} s on the clock, the program's {programs[0].clock:.2f}", flush=True)


def main(words: List[str]) -> int:
    reader = Words(__doc__)
    reader.add_argument("module", type=file_name, nargs="?", default=MODULE)
    module = pathlib.Path(reader.read(words, 0).module).resolve()
    with tempfile.TemporaryDirectory() as folder:
        for title, asked in questions_in(folder).items():
            report(title, *measured(module, asked))
    return 0


if __name__ == "__main__":
    end(main)
