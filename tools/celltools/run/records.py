"""Reads and writes the texts of records."""
import itertools
from typing import List, Sequence


def steps_in(text: str) -> List[str]:
    """The steps of the record at the front of a text, of either format, each as its line in format 1."""
    record = text.partition("\nsteps ")[0]
    steps: List[str] = []
    for line in record.split("\n")[1:]:
        letter, *numbers = line.split()
        # a line of format 2 stands for so many instructions
        steps += [f"x {numbers[0]}"] * int(numbers[1]) if letter == "x" and len(numbers) == 2 else [line]
    return steps


def plain_record(steps: Sequence[str]) -> str:
    """The record of format 1 of steps, which is made the soonest."""
    return "\n".join(["cell-record 1", *steps, f"steps {len(steps)}", ""])


def record_text(steps: Sequence[str]) -> str:
    """The record of format 2 of steps, each of which is given as its line in format 1."""
    lines: List[str] = []
    for step, equal in itertools.groupby(steps):
        same = list(equal)
        lines += [f"{step} {len(same)}"] if step.startswith("x ") else same
    return "\n".join(["cell-record 2", *lines, f"steps {len(steps)}", ""])
