#!/usr/bin/env python3
"""Measures how soon tools/debug answers.

Usage: bench/debugger.py

Eight processors bring blocks, work on them and put them back. Of sessions behind so many steps it prints how long each command takes until its answer is
there, in seconds, the best of five; `step`, `back` and `step x1` are each made at that step.
"""
import celltools.common.starting  # noqa: F401  (before all others)

import subprocess
import tempfile
import time
from typing import Dict, List

from celltools.common.ending import end
from celltools.common.repository import ROOT
from lib.machines import blocks
from lib.measuring import RUNS, STEPS, Path, called

DEBUG = ROOT / "tools" / "debug"
PLACES = (1000, 10_000, 100_000)
COMMANDS = ("step", "back", "step x1", "where", "print", "x 0x1000 64", "queue", "actors", "dis", "next", "run 0x38")


class Session:
    """A session of the debugger that is asked by a pipe."""

    def __init__(self, machine: Path) -> None:
        self.child = subprocess.Popen([DEBUG, machine], cwd=ROOT, stdin=subprocess.PIPE, stdout=subprocess.PIPE, text=True)
        self.count = 0
        self.ask("where")

    def ask(self, command: str) -> float:
        """How long a command takes. A comment behind it says that its answer has ended."""
        self.count += 1
        start = time.monotonic()
        assert self.child.stdin and self.child.stdout
        self.child.stdin.write(f"{command}\n# {self.count}\n")
        self.child.stdin.flush()
        for line in self.child.stdout:
            if line.endswith(f"> # {self.count}\n"):
                return time.monotonic() - start
        raise SystemExit("tools/debug ended")

    def close(self) -> None:
        self.child.communicate()


def times(session: Session, place: int) -> Dict[str, float]:
    """The best time of each command at a step."""
    best: Dict[str, float] = {}
    for _ in range(RUNS):
        for command in COMMANDS:
            session.ask("back to 0")
            session.ask("cut")
            session.ask(f"step {place}")
            took = session.ask(command)
            best[command] = min(took, best.get(command, took))
    return best


def main(words: List[str]) -> int:
    called(__doc__, words)
    with tempfile.TemporaryDirectory() as folder:
        session = Session(blocks(folder, STEPS))
        for place in PLACES:
            print(f"at step {place}: " + ", ".join(f"{command} {took:.2f}" for command, took in times(session, place).items()))
        session.close()
    return 0


if __name__ == "__main__":
    end(main)
