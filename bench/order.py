#!/usr/bin/env python3
"""Measures the orderer.

Usage: bench/order.py

Eight processors bring blocks, work on them and put them back, or transfer without a pause, by single commands and by lists, and raise one counter. Of runs
of three lengths it prints what `advance` takes a step beside following the record, what a question (`before`) takes, and the most memory that the process
has with the orderer, beside what it has without. Each time is the best of five.
"""
import celltools.common.starting  # noqa: F401  (before all others)

import tempfile
from typing import List

from celltools.common.ending import end
from lib.machines import Making, busy
from lib.measuring import BUDGETS, called, recorded, times_of_check

QUESTIONS = 4  # that run_trace puts at each step


def growth(title: str, make: Making) -> None:
    """What a step costs in runs of each length."""
    for budget in BUDGETS:
        machine = make(budget)
        found, before, after = times_of_check(machine, recorded(machine))
        steps = found["steps"]
        advance = 1000 * (found["ordered"] - found["alone"]) / steps
        question = 1000 * (found["asking"] - found["ordered"]) / steps / QUESTIONS
        print(f"{title}, {steps} steps: {advance:.0f} ns for `advance`, {question:.0f} ns for `before`, "
              f"{after / 1024:.1f} MiB, of which {before / 1024:.1f} MiB before the orderer")


def main(words: List[str]) -> int:
    called(__doc__, words)
    with tempfile.TemporaryDirectory() as folder:
        for title, make in busy(folder):
            growth(title, make)
    return 0


if __name__ == "__main__":
    end(main)
