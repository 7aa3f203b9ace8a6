"""Explains what `cell` refuses in the form of a record file."""
import pathlib
import re
import tempfile
from typing import Dict, Iterator, Match, Optional, Tuple

from celltools.explain.report import MOST, MOST_QUOTED, Report, cell, in_latin, short
from celltools.explain.run import run_warnings
from celltools.source.language import value_of

HEADS = [b"cell-record 1", b"cell-record 2"]
NEWEST = HEADS[-1]
MACHINE = b"cell-machine 1\nlines 1\nbudget 1\nspe\n"  # the form of a record is judged before its steps
OTHER = rb"a \d+|(e|r) \d+ \d+|p \d+ \d+ \d+ \d+|h"
STEPS = {HEADS[0]: re.compile(rb"x \d+|" + OTHER), HEADS[1]: re.compile(rb"x \d+ \d+|" + OTHER)}
STRETCH = re.compile(rb"x (\d+) (\d+)")
COUNT = re.compile(rb"steps (\d+)")
FORMS = {
    HEADS[0]: "a step is `x P`, `p P C E K`, `e P C`, `r P C`, `a P` or `h`, with decimal numbers and one blank before each",
    HEADS[1]: "a line is `x P N`, `p P C E K`, `e P C`, `r P C`, `a P` or `h`, with decimal numbers and one blank before each; "
              "`x P` without N is of format 1",
}
RANGES = "P is at most 15, C at most 999999, E at most 2047 and K at most 128, without leading zeros; a record has at most 1000000 steps"
MOST_STEPS = 1_000_000
ABOVE_ALL = 2**64


def number_of(digits: bytes) -> int:
    """The number of a record that digits spell, and one above all others where they have more than 64 bits."""
    value = value_of(in_latin(digits), 10)
    return ABOVE_ALL if value is None else value


def is_record(name: str, data: bytes) -> bool:
    """Whether a file is a record, by its name or its beginning."""
    return name.endswith(".out") or data.startswith(b"cell-record")


class RecordFile:
    """A record file, of which the faulty lines are mended one after the other."""

    def __init__(self, data: bytes) -> None:
        self.lines = data.split(b"\n")
        self.is_counted = True  # whether it is known how many steps the faulty lines stand for
        self.counted = 1, 0  # a line, and how many steps the lines before it stand for

    def asked(self) -> str:
        """What the program says of the record's form."""
        with tempfile.TemporaryDirectory(prefix="cell-explain-") as folder:
            machine, record = pathlib.Path(folder) / "machine", pathlib.Path(folder) / "record"
            machine.write_bytes(MACHINE)
            record.write_bytes(b"\n".join(self.lines))
            return cell("check", str(machine), str(record))[2]

    def faults(self) -> Iterator[Tuple[Optional[int], str]]:
        """Each faulty line's number with the reason, in order; a number of None where the program means no line."""
        goes_on = True
        while goes_on:
            said = self.asked()
            found = re.fullmatch(r"record file, line (\d+)", said)
            if not found:
                if said.startswith(("record file", "cannot read")):
                    yield None, said
                return
            words, goes_on = self.mend(int(found[1]) - 1)
            if words:
                yield int(found[1]), words

    def steps_before(self, at: int) -> int:
        """How many steps the lines before one stand for, which isn't before one that was asked about."""
        start, before = self.counted
        found = (STRETCH.fullmatch(line) if self.lines[0] == HEADS[1] else None for line in self.lines[start:at])
        self.counted = max(start, at), before + sum(int(stretch[2]) if stretch else 1 for stretch in found)
        return self.counted[1]

    def mend(self, at: int) -> Tuple[str, bool]:
        """Takes the fault out of a line: what it was, and whether what stands behind it can be judged."""
        if at >= len(self.lines) or at == len(self.lines) - 1 and not self.lines[at]:
            steps = self.steps_before(at)
            return f"the record was cut: `steps {steps}` has to follow its {steps} steps", False
        line = self.lines[at]
        if line.endswith(b"\r"):
            self.lines = [other.removesuffix(b"\r") for other in self.lines]
            return "lines end with CR LF: a record has LF alone, `tr -d '\\r'` takes the others away", True
        if at == len(self.lines) - 1:
            return f"the record was cut within a line: `{in_latin(line)[:MOST_QUOTED]}` has no line feed", False
        self.lines[at], words = self.mended(line, at)
        return words, True

    def mended(self, line: bytes, at: int) -> Tuple[bytes, str]:
        """A line as it might be, so that the program goes on behind it, and what is wrong with it."""
        shown = in_latin(line)[:MOST_QUOTED]
        if at == 0:
            other = "a record of another format" if line.startswith(b"cell-record") else "no record"
            heads = " or ".join(f"`{in_latin(head)}`" for head in HEADS)
            return self.likely_head(), f"{other}: the first line is {heads}; make the run again with this program"
        steps = self.steps_before(at)
        if found := COUNT.fullmatch(line):
            return b"steps %d" % steps, f"the number of steps before it is {steps}, not {short(in_latin(found[1]))}" if self.is_counted else ""
        if not STEPS[self.lines[0]].fullmatch(line):
            self.is_counted = self.is_counted and self.lines[0] == HEADS[0]
            return b"h", f"`{shown}` is not a step: {FORMS[self.lines[0]]}"
        if stretch := STRETCH.fullmatch(line) if self.lines[0] == HEADS[1] else None:
            return self.mended_stretch(stretch, at, steps)
        return b"h", f"a number of `{shown}` is out of its range: {RANGES}"

    def mended_stretch(self, stretch: Match[bytes], at: int, steps: int) -> Tuple[bytes, str]:
        """The same of a line that has the form of a stretch."""
        shown, count = in_latin(stretch[0])[:MOST_QUOTED], number_of(stretch[2])
        before = STRETCH.fullmatch(self.lines[at - 1])
        if before and before[1] == stretch[1] and count < ABOVE_ALL:
            other = b"14" if stretch[1] == b"15" else b"15"
            whole = count + int(before[2])
            words = f"`{shown}` goes on with the stretch of the line before it: one line `x {in_latin(stretch[1])} {whole}` has both"
            return b"x %s %d" % (other, count), words
        self.is_counted = False
        if count == 0:
            return b"h", f"`{shown}` has no instruction: a stretch has at least one"
        if number_of(stretch[1]) <= 15 and MOST_STEPS - steps < count < ABOVE_ALL:
            return b"h", f"with `{shown}` there are {count + steps} steps, and a record has at most {MOST_STEPS}"
        return b"h", f"a number of `{shown}` is out of its range: {RANGES}"

    def likely_head(self) -> bytes:
        """The head of the format that the lines are of."""
        return HEADS[1] if any(STRETCH.fullmatch(line) for line in self.lines) else HEADS[0]


def explain_record(name: str, data: bytes, report: Report, machines: Dict[str, bytes]) -> None:
    """Explains a record; `machines` has the names and the bytes of the machine files that were named before."""
    before = report.refusals
    for count, (number, words) in enumerate(RecordFile(data).faults(), 1):
        report.fault(f"{name}:{number}" if number else name, words)
        if count == MOST:
            report.fault(name, f"only the first {MOST} faulty lines are printed")
            return
    for place, words in run_warnings(name, data, machines) if report.refusals == before else ():
        report.warning(place, words)
