"""Clean programs with one instruction left out: what a hunt finds in their runs, and what a loop over single records of the same runs does.

The machine files of tests/deletions are clean programs of the kinds that are written for the Cell. The loop has eyes of its own: it reads end words, statuses
and shown bytes from the records, and asks `cell check` for races. Nothing of it is asked of the hunt.

A run that hangs spends its budget, which is what takes long. So these machines have few processors, and a budget above what the longest of the clean runs
takes, but not by much: with another seed a processor that polls may spend more.
"""
import dataclasses
import json
import pathlib
import re
import subprocess
import tempfile
from typing import Dict, Iterator, List, Optional, Tuple

from celltools.common.repository import ROOT, built

FOLDER: pathlib.Path = ROOT / "tests" / "deletions"
RUNS = 200  # of each hunt
SECONDS = 600
INSTRUCTION = re.compile(r"(\s*(?:\w+:)?)\s*([a-z]\w*(?:\s[^#:]*?)?)\s*(?:#.*)?")
SOURCE = re.compile(r"^source\s+(\S+)", re.M)
STATUS = re.compile(r"spe (\d+) (.*) pc 0x([0-9a-f]{5}) queued \d+")
FAULTS = ("badword", "badchannel", "dmafault")
FLAWS = ("race", "fault", "halt", "stuck", "budget")
LEFT = ("took ", "ls ", "mem ")  # the lines of the states that say what a run left
Seen = Dict[Tuple[str, ...], Tuple[int, int]]  # of each text in how many runs it is, and the first of them


@dataclasses.dataclass(frozen=True)
class Deletion:
    """An instruction of a source of a machine file that is left out; its label stays. Lines are counted from 1."""
    machine: str
    source: str
    line: int
    text: str

    @property
    def place(self) -> str:
        return f"{self.machine} {self.source}:{self.line}"


@dataclasses.dataclass(frozen=True)
class Findings:
    """What goes wrong in the runs of a machine, how they end, and what they leave."""
    flaws: Seen
    ends: Seen
    results: Seen


def machine_file(name: str) -> pathlib.Path:
    return FOLDER / f"{name}.cell"


def machines() -> List[str]:
    return sorted(path.stem for path in FOLDER.glob("*.cell"))


def deletions_of(machine: str) -> Iterator[Deletion]:
    """Each instruction of the sources of a machine file."""
    for source in sorted(set(SOURCE.findall(machine_file(machine).read_text()))):
        for number, line in enumerate((ROOT / source).read_text().splitlines(), 1):
            found = INSTRUCTION.fullmatch(line)
            if found:
                yield Deletion(machine, source, number, " ".join(found[2].split()))


def write_without(deletion: Deletion, folder: pathlib.Path) -> pathlib.Path:
    """The machine file with a copy of the source in which the line has its label alone."""
    lines = (ROOT / deletion.source).read_text().splitlines()
    found = INSTRUCTION.fullmatch(lines[deletion.line - 1])
    assert found is not None
    lines[deletion.line - 1] = found[1]
    copy = folder / "deleted.s"
    copy.write_text("\n".join(lines) + "\n")
    text = machine_file(deletion.machine).read_text()
    file = folder / "deleted.cell"
    file.write_text(SOURCE.sub(lambda found: f"source {copy if found[1] == deletion.source else found[1]}", text))
    return file


# ---- a hunt

def found_by_hunt(machine: pathlib.Path) -> Optional[Findings]:
    """What a hunt tells; None where it refuses the machine."""
    done = subprocess.run([built("hunt"), machine, "--runs", str(RUNS), "--jobs", "1", "--json"], cwd=ROOT, capture_output=True, text=True, timeout=SECONDS)
    if done.returncode not in (0, 1):
        return None
    head, *told = map(json.loads, done.stdout.splitlines())
    spent = [head[name] for name in ("livelock", "budget") if head[name]["runs"]]  # the loop doesn't tell them apart
    flaws: Seen = {(name,): (head[name]["runs"], head[name]["first"]) for name in FLAWS if head[name]["runs"] and name != "budget"}
    if spent:
        flaws[("budget",)] = sum(count["runs"] for count in spent), min(count["first"] for count in spent)
    ends: Seen = {(one["end"],): (one["runs"], one["first"]) for one in told if "end" in one and "result" not in one}
    results: Seen = {(one["end"], one["result"]): (one["runs"], one["first"]) for one in told if "result" in one}
    if head["runs"] != RUNS or done.returncode != bool(flaws):
        raise RuntimeError(f"a hunt of {head['runs']} runs with {flaws} ended with status {done.returncode}")
    return Findings(flaws, ends, results)


# ---- the same runs, one by one

class Looking:
    """Looks at single runs of a machine. What `cell check` says of a record is asked once."""

    def __init__(self, machine: pathlib.Path, folder: pathlib.Path) -> None:
        self.machine, self.record = machine, folder / "deleted.out"
        self.races: Dict[bytes, bool] = {}

    def has_race(self, record: bytes) -> bool:
        if record not in self.races:
            self.record.write_bytes(record)
            done = subprocess.run([built("cell_cli"), "check", self.machine, self.record], cwd=ROOT, capture_output=True, text=True, timeout=SECONDS)
            if not done.stdout.startswith(("accepted ", "race ")):
                raise RuntimeError(f"cell check: {done.stdout}{done.stderr}")
            self.races[record] = done.stdout.startswith("race ")
        return self.races[record]

    def run(self, number: int) -> Tuple[List[str], str, str]:
        """The flaws of a run, how it ends, and what it left."""
        words = [str(built("hunt")), str(self.machine), "record", str(number)]
        record = subprocess.run(words, cwd=ROOT, capture_output=True, check=True, timeout=SECONDS).stdout
        states = record[record.index(b"\nend ") + 1:].decode().splitlines()
        word = states[0].split()[1]
        statuses = [found.groups() for found in map(STATUS.fullmatch, states) if found]
        flaws = {
            "race": self.has_race(record), "stuck": word == "Stuck", "budget": word == "Budget",
            "fault": any(status.startswith(FAULTS) for _, status, _ in statuses), "halt": any(status == "halted" for _, status, _ in statuses),
        }  # fmt: skip
        spes = [f" | {spe} {status}" + (f" at 0x{pc}" if status == "running" else "") for spe, status, pc in statuses]
        left = "".join(f"{line}\n" for line in states if line.startswith(LEFT))
        return [name for name in FLAWS if flaws[name]], word + "".join(spes), left


def count(seen: Seen, key: Tuple[str, ...], number: int) -> None:
    runs, first = seen.get(key, (0, number))
    seen[key] = runs + 1, first


def found_by_looking(machine: pathlib.Path, folder: pathlib.Path) -> Findings:
    """What the runs tell, each looked at by itself."""
    looking = Looking(machine, folder)
    flaws: Seen = {}
    ends: Seen = {}
    results: Seen = {}
    for number in range(RUNS):
        found, end, left = looking.run(number)
        for flaw in found:
            count(flaws, (flaw,), number)
        count(ends, (end,), number)
        count(results, (end, left), number)
    return Findings(flaws, ends, results)


# ---- what tells a deletion

def told_of(found: Optional[Findings], clean: Findings) -> str:
    """In words, what tells that an instruction was left out: flaws with how many of the runs have them, and different ends and results."""
    if found is None:
        return "refused"
    said = [f"{name} {'every run' if runs == RUNS else f'{runs} of {RUNS}'}" for name in FLAWS for runs, _ in [found.flaws.get((name,), (0, 0))] if runs]
    if len(found.ends) > 1:
        said.append(f"{len(found.ends)} ends")
    if len({left for _, left in found.results}) > 1:
        said.append(f"{len({left for _, left in found.results})} results")
    if not said:
        said = ["nothing" if set(found.results) == set(clean.results) else "another result"]
    return ", ".join(said)


def judged(deletion: Deletion, clean: Findings) -> Tuple[str, bool]:
    """What tells the deletion, as the loop finds it, and whether the hunt tells the same."""
    with tempfile.TemporaryDirectory() as name:
        folder = pathlib.Path(name)
        machine = write_without(deletion, folder)
        hunted = found_by_hunt(machine)
        looked = found_by_looking(machine, folder) if hunted else None
    return told_of(looked, clean), hunted == looked
