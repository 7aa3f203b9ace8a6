"""What a command takes: time, memory, machine instructions; and the words by which a bench is called."""
import os
import pathlib
import re
import shutil
import subprocess
import sys
import time
from typing import Dict, IO, List, Optional, Sequence, Tuple, Union

from celltools.common.repository import CELL, ROOT, built
from celltools.common.words import Words

TRACER = built("run_trace")
RUNS = 5
EACH = 0.005  # seconds between two looks at the memory of a program
STEPS = 1_000_000
BUDGETS = (10_000, 100_000, STEPS)
Path = Union[str, "os.PathLike[str]"]


def called(text: Optional[str], words: Sequence[str]) -> None:
    """Ends a bench that takes no words where there are some, but for --help."""
    Words(text).read(words, 0)


def usage_of(command: Sequence[Path], allowed: Sequence[int] = (0,), output: Union[int, IO[bytes]] = subprocess.DEVNULL,
             errors: Optional[int] = None, standard_input: Optional[IO[bytes]] = None) -> Tuple[float, float, int]:
    """The time and the processor time in seconds, and the greatest resident memory in KiB, of a command that ends with a status that is allowed. The memory is
    at least that of this interpreter, some 13 MiB, since the child has that before it becomes the program."""
    start = time.monotonic()
    child = subprocess.Popen(command, stdin=standard_input, stdout=output, stderr=errors, cwd=ROOT)
    _, status, usage = os.wait4(child.pid, 0)
    took = time.monotonic() - start
    if os.waitstatus_to_exitcode(status) not in allowed:
        sys.exit(f"{' '.join(map(str, command))} failed")
    return took, usage.ru_utime + usage.ru_stime, usage.ru_maxrss


def peak_of(command: Sequence[Path], allowed: Sequence[int] = (0,), errors: Optional[int] = None) -> int:
    """The greatest resident memory in KiB of a program itself, up to the last look at it while it runs."""
    most = 0
    with subprocess.Popen(command, stdout=subprocess.DEVNULL, stderr=errors, cwd=ROOT) as child:
        while child.poll() is None:
            most = max(most, memory_of(child.pid))
            time.sleep(EACH)
    if child.returncode not in allowed:
        sys.exit(f"{' '.join(map(str, command))} failed")
    return most


def memory_of(process: int) -> int:
    """The greatest memory so far of a process in KiB, 0 where it has ended."""
    try:
        found = re.search(r"^VmHWM:\s+(\d+)", pathlib.Path(f"/proc/{process}/status").read_text(), re.M)
    except OSError:
        found = None
    return int(found[1]) if found else 0


def measured(words: Sequence[Path], allowed: Sequence[int] = (0,), program: Path = CELL, runs: int = RUNS, errors: Optional[int] = None) -> Tuple[float, int]:
    """The best time in seconds, and the greatest resident memory in KiB, of a command of `cell` or another program."""
    found = [usage_of([program, *words], allowed, errors=errors) for _ in range(runs)]
    return min(took for took, _, _ in found), peak_of([program, *words], allowed, errors)


def instructions(folder: str, command: Sequence[Path]) -> int:
    """How many machine instructions a command takes, counted by valgrind. A check may find a race."""
    if shutil.which("valgrind") is None:
        sys.exit("valgrind isn't there, which counts the instructions; install it first")
    counts = os.path.join(folder, "counts")
    done = subprocess.run(["valgrind", "--tool=callgrind", f"--callgrind-out-file={counts}", *command], cwd=ROOT, capture_output=True, text=True)
    found = re.search(r"Collected : (\d+)", done.stderr)
    if found is None or done.returncode not in (0, 1):
        sys.exit(f"{' '.join(map(str, command))} failed: {done.stderr}")
    return int(found[1])


def recorded(machine: Path) -> pathlib.Path:
    """The output of a run in which the actors take turns on one thread, in a file."""
    record = pathlib.Path(f"{os.fspath(machine)}.record")
    with open(record, "wb") as file:
        subprocess.run([TRACER, "alone", machine], stdout=file, cwd=ROOT, check=True)
    return record


def steps_of(record: pathlib.Path) -> int:
    """How many steps a run's output has."""
    return int(record.read_text().split("\nsteps ", 1)[1].split("\n", 1)[0])


def times_of_check(machine: Path, record: Path) -> Tuple[Dict[str, int], int, int]:
    """What run_trace measures, each the best of some runs: microseconds by their names, and the memory before and after in KiB."""
    best: Dict[str, int] = {}
    memory: List[int] = []
    for _ in range(RUNS):
        done = subprocess.run([TRACER, "time", machine, record], cwd=ROOT, capture_output=True, text=True, check=True).stdout
        found = {name: int(value) for name, value in re.findall(r"^(steps|alone|ordered|asking|races) (\d+)$", done, re.M)}
        memory = [int(value) for value in re.findall(r"^VmHWM:\s+(\d+) kB", done, re.M)]
        best = {name: min(value, best.get(name, value)) for name, value in found.items()}
    return best, memory[0], memory[1]


def report_check(title: str, machine: Path) -> None:
    """Prints what the check of a run takes, and its parts."""
    record = recorded(machine)
    took, most = measured(["check", machine, record], allowed=(0, 1))
    found, _, _ = times_of_check(machine, record)
    steps = found["steps"]
    print(f"{title}, {steps} steps: {took:.2f} s and {most / 1024:.1f} MiB for a check, {steps / took / 1e6:.2f} million steps a second; of a step's "
          f"{1e9 * took / steps:.0f} ns, following the record takes {1000 * found['alone'] / steps:.0f}, the orderer "
          f"{1000 * (found['ordered'] - found['alone']) / steps:.0f}, the search beside them {1000 * (found['races'] - found['ordered']) / steps:.0f}")
