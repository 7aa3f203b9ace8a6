#!/usr/bin/env python3
"""What the gate costs, crate by crate: runs `rt ci --anew` and prints a table of processor time in minutes.

Usage: bench/gate.py [--kept]

The machine has to do nothing else. The gate's own output goes to standard error. With --kept it is a plain
`rt ci`, which with some kits goes on with what earlier runs on the machine have kept, and with others always begins from nothing and knows no --anew.

Once a second it reads from /proc what each of the prover's processes has used so far. What a process uses after the
last reading is in the total alone, so the columns add up to a little less. On a virtual machine the last line tells how long processes had to wait while
its host gave the cores to others.
"""
import celltools.common.starting  # noqa: F401  (before all others)

import collections
import os
import pathlib
import resource
import subprocess
import sys
import time
from typing import Dict, Iterator, List, Sequence, Tuple

from celltools.common.ending import end
from celltools.common.repository import ROOT
from celltools.common.words import Words

TICKS = os.sysconf("SC_CLK_TCK")
KINDS = ["proof", "tests", "edits"]


def kind_of(command: Sequence[str], folder: str) -> str:
    """What a prover's process works on: a copy with an edit, the tests, or the crate itself."""
    if "rt-edit" in folder:
        return "edits"
    return "tests" if "--test" in command else "proof"


def stat_of(process: str) -> List[str]:
    """What /proc says of a process behind its name: the second field is its parent, and so on."""
    return pathlib.Path("/proc", process, "stat").read_text().rsplit(")", 1)[1].split()


def command_of(process: str) -> List[str]:
    return pathlib.Path("/proc", process, "cmdline").read_text().split("\0")


def is_prover(command: Sequence[str]) -> bool:
    return command[0].endswith("/rattle") and "--crate-name" in command


def is_below(process: str, ancestor: str) -> bool:
    """Whether a process was started by another, or by one that that one started."""
    while process not in ("0", "1"):
        process = stat_of(process)[1]
        if process == ancestor:
            return True
    return False


def readings(gate: "subprocess.Popen[bytes]") -> Iterator[Tuple[Tuple[str, str], str, str, float]]:
    """(process, crate, kind, seconds used) for each process of the prover that works for this gate now. What the processes used that it has started
    counts with it once they have ended."""
    for entry in pathlib.Path("/proc").iterdir():
        if not entry.name.isdigit():
            continue
        try:
            command, stat = command_of(entry.name), stat_of(entry.name)
            if not is_prover(command) or is_prover(command_of(stat[1])) or not is_below(entry.name, str(gate.pid)):
                continue  # it is no prover, a part of one, or works for another checkout
            folder = os.readlink(entry / "cwd")
        except (OSError, UnicodeDecodeError):
            continue  # it ended meanwhile
        crate = command[command.index("--crate-name") + 1]
        used = sum(map(int, stat[11:15])) / TICKS
        yield (entry.name, stat[19]), crate, kind_of(command, folder), used


def stolen() -> float:
    """Minutes of the cores' time that a host has given to others since the start of the machine."""
    return int(pathlib.Path("/proc/stat").read_text().split()[8]) / TICKS / 60


def used_by(gate: "subprocess.Popen[bytes]") -> Dict[str, Dict[str, float]]:
    """The minutes that the prover used of each crate, by kinds, when the gate has ended."""
    processes: Dict[Tuple[str, str], Tuple[str, str, float]] = {}
    while gate.poll() is None:
        for process, crate, kind, used in readings(gate):
            processes[process] = crate, kind, used
        time.sleep(1)
    table: Dict[str, Dict[str, float]] = collections.defaultdict(lambda: dict.fromkeys(KINDS, 0.0))
    for crate, kind, used in processes.values():
        table[crate][kind] += used / 60
    return table


def print_table(table: Dict[str, Dict[str, float]]) -> None:
    print("| crate | " + " | ".join(KINDS) + " |")
    print("|---" * (1 + len(KINDS)) + "|")
    for line in (ROOT / "crates.txt").read_text().splitlines():
        crate = next(iter(line.partition("#")[0].partition(":")[0].split()), None)
        if crate:
            print(f"| {crate} | " + " | ".join(f"{table[crate][kind]:.1f}" for kind in KINDS) + " |")


def main(words: List[str]) -> int:
    reader = Words(__doc__)
    reader.add_argument("--kept", action="store_true")
    anew = [] if reader.read(words, 0).kept else ["--anew"]
    began, taken = time.monotonic(), stolen()
    gate = subprocess.Popen(["rt", "ci", *anew], cwd=ROOT, stdout=sys.stderr)
    print_table(used_by(gate))
    children = resource.getrusage(resource.RUSAGE_CHILDREN)
    total = (children.ru_utime + children.ru_stime) / 60
    print(f"\n{(time.monotonic() - began) / 60:.1f} minutes, {total:.0f} minutes of processor time; {stolen() - taken:.0f} minutes of the cores' time went to others")
    return gate.returncode


if __name__ == "__main__":
    end(main)
