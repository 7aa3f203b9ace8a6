"""A check takes time in proportion to the record, also where nobody waits for a command by its tag and a signal, a line or a stall orders them; and a hunt in
proportion to the steps, also if a race repeats. A run of a hunt is printed without a search for races."""
import pathlib
import resource
import subprocess
import sys
import tempfile
import time
from typing import Iterator, List, Tuple

from celltools.common.repository import ROOT, built
from lib.hostility.rows import Row, ended, shown

CELL = built("cell_cli")
TRACER = built("run_trace")
# the sources of a machine's processors, each with the address at which it begins
MACHINES: List[Tuple[Tuple[str, int], ...]] = [
    (("bench/pingpong.s", 0), ("bench/pingpong.s", 0x80)),
    (("bench/lone_signals.s", 0),),
    (("bench/lone_lines.s", 0),),
    (("bench/stalls.s", 0),),
]
FEW, MANY = 5_000, 20_000
MOST = 8  # times: four times as many steps in time that grows with their number, and room for a machine at work. Their square would be 16, their cube 64
TRIES = 3
SECONDS = 10


def machine_text(spes: Tuple[Tuple[str, int], ...], budget: int) -> str:
    """A machine file of processors."""
    lines = ["cell-machine 1", "lines 1", f"budget {budget}"]
    for source, entry in spes:
        lines += ["spe", f"source {source}", f"entry {entry}"]
    return "".join(f"{line}\n" for line in lines)


def recorded(folder: pathlib.Path, spes: Tuple[Tuple[str, int], ...], budget: int) -> Tuple[pathlib.Path, pathlib.Path]:
    """The machine file of a run of so many steps, and its record, which is the same each time."""
    machine, record = folder / f"{budget}.cell", folder / f"{budget}.out"
    machine.write_text(machine_text(spes, budget), encoding="utf-8")
    with open(record, "wb") as file:
        subprocess.run([TRACER, "alone", machine], cwd=ROOT, stdout=file, check=True, timeout=SECONDS)
    return machine, record


def children_time() -> float:
    """The processor time of all children that have ended, in seconds."""
    used = resource.getrusage(resource.RUSAGE_CHILDREN)
    return used.ru_utime + used.ru_stime


def check_time(machine: pathlib.Path, record: pathlib.Path) -> float:
    """The processor time of a check, in seconds; infinite where it doesn't end in time."""
    with subprocess.Popen([CELL, "check", machine, record], cwd=ROOT, stdout=subprocess.DEVNULL, stderr=subprocess.DEVNULL) as child:
        before = children_time()
        try:
            child.wait(SECONDS)
        except subprocess.TimeoutExpired:
            child.kill()
            return float("inf")
    return children_time() - before


def faults_of(spes: Tuple[Tuple[str, int], ...]) -> Iterator[str]:
    """What is wrong with the times of the checks of a machine's runs."""
    with tempfile.TemporaryDirectory(prefix="cell-growing-") as folder:
        few, many = (recorded(pathlib.Path(folder), spes, budget) for budget in (FEW, MANY))
        small, large = (min(check_time(*files) for _ in range(TRIES)) for files in (few, many))
        if large > MOST * max(small, 0.005):
            yield f"{spes[0][0]}: a check of {MANY} steps takes {large:.3f} s, where one of {FEW} takes {small:.3f} s"


if __name__ == "__main__":  # a process of its own, whose children are these checks alone
    found = [fault for spes in MACHINES for fault in faults_of(spes)]
    print(*found, sep="\n", end="\n" if found else "")
    sys.exit(bool(found))


def grows_with_the_record() -> Iterator[str]:
    """The times of other calls of this test are not to be among those that are compared."""
    done = subprocess.run([sys.executable, "-m", "lib.hostility.growing"], cwd=ROOT / "tests", capture_output=True, text=True)
    yield from (done.stdout + done.stderr).splitlines()


# A million steps of GETs into one place that nobody waits for. A search that compares each one with all before it takes a minute for each of these runs, in place
# of one second.
FILES = {"long.cell": b"cell-machine 1\nlines 1\nbudget 1000000\nspe\nsource forgotten.s\n",
         "forgotten.s": (ROOT / "bench" / "forgotten.s").read_bytes().replace(b"COMMAND", b"0x40")}
LONG_RUNS, LONG_RECORDS = 4, 8  # of each scheduling strategy alike
NEVER = 150  # seconds: a bound for what never ends
MEGABYTES = 2048


def records_are_made_without_a_search() -> Iterator[str]:
    """Records of such runs are printed, all within the time that one search takes."""
    with tempfile.TemporaryDirectory(prefix="cell-growing-") as room:
        folder, until = pathlib.Path(room), time.monotonic() + NEVER
        for name, data in FILES.items():
            (folder / name).write_bytes(data)
        for number in range(LONG_RECORDS):
            found = ended([str(ROOT / "hunt"), "long.cell", "record", str(number)], folder, max(1, until - time.monotonic()), MEGABYTES)
            if found is None or found.status or b"\nsteps 1000000\n" not in found.output:
                yield "\n".join([f"the record of run {number} isn't made", *(shown(found) if found else [])])
                return


ROWS = [
    Row("a race that repeats in long runs", ["hunt", "long.cell", "--runs", str(LONG_RUNS), "--jobs", "1"], 1, seconds=NEVER, megabytes=MEGABYTES, files=FILES,
        printed=rf"^long\.cell: {LONG_RUNS} runs, seed 1: DATA RACE in {LONG_RUNS} runs, LIVELOCK in {LONG_RUNS} runs$"),
]
CHECKS = [grows_with_the_record, records_are_made_without_a_search]
