#!/usr/bin/env python3
"""Measures the search for races.

Usage: bench/races.py

Of the runs of bench/order.py, and of a crowd of unordered readers of one line before as many writers of other bytes of that line, it prints what a `check` takes,
files in and verdict out, with its greatest memory; and apart what following the record takes, what the orderer takes, and what the search takes beside both.
Each time is the best of five.
"""
import celltools.common.starting  # noqa: F401  (before all others)

import tempfile
from typing import List

from celltools.common.ending import end
from lib.machines import busy, crowd
from lib.measuring import BUDGETS, called, report_check


def main(words: List[str]) -> int:
    called(__doc__, words)
    with tempfile.TemporaryDirectory() as folder:
        for title, make in [*busy(folder), ("a crowd", lambda budget: crowd(folder, budget))]:
            for budget in BUDGETS:
                report_check(title, make(budget))
    return 0


if __name__ == "__main__":
    end(main)
