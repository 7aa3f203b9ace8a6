"""Checks of the Python package: refusals in other processes, interrupts, memory, many files, arguments and the parts of hunts."""
import os
import pathlib
import pickle
import platform
import shutil
import signal
import subprocess
import sys
import time
from typing import Any, Callable, Dict, Iterator, List, Optional, Tuple

from celltools.common.repository import ROOT

SECONDS = 60
PARTS = ("examples/races/mail_race.cell", "examples/races/list.cell", "examples/first.cell", "examples/races/stream3.cell")
SPIN = {"m": "cell-machine 1\nlines 1\nbudget {budget}\nspe\nsource s\n", "s": "_start: il $3,0\nagain: ai $3,$3,1\nbr again\n"}
# A refusal and an answer of another process, by a pool that hangs if the refusal can't be pickled.
POOL = """
import multiprocessing, cell
def work(source): return cell.assemble(source).entry
if __name__ == "__main__":
    with multiprocessing.Pool(2) as pool:
        try: pool.map(work, ["stop 1\\n", "il $3\\n"])
        except cell.Faulty as fault: print(fault.file, fault.line, fault.kind)
"""
LONG_HUNT = """
import cell
print("begun", flush=True)
try: cell.hunt("m", FILES, runs=1000000)
except KeyboardInterrupt: print("interrupted")
"""
# The steps of a long run: how many there are, the last one, and the most memory of the process in MiB.
LONG_TRACE = """
import resource, cell
run = cell.run("m", FILES)
before = resource.getrusage(resource.RUSAGE_SELF).ru_maxrss
steps = cell.trace("m", run, FILES)
count = sum(1 for step in steps if step.fields)
print(len(steps), count, steps[-1].line, sep=",")
print((resource.getrusage(resource.RUSAGE_SELF).ru_maxrss - before) // 1024)
"""
STEPS, MOST_MEMORY = 200_000, 82  # MiB: a tenth of what a list of all steps took
MANY_FILES = """
import cell
files = {f"{number}.s": b"" for number in range(400000)}
print(cell.ask(["asm", "last.s"], {**files, "last.s": b"stop 1\\n"}).text)
machine = "cell-machine 1\\nlines 1\\nbudget 9\\nspe\\nsource last.s # 7.s\\n"
print(cell.run("m", {**files, "m": machine, "last.s": b"stop 1\\n"}).end)
"""


def why_skipped() -> Optional[str]:
    """Why the library can't be made on this machine; None if it can."""
    if (platform.system(), platform.machine()) != ("Linux", "x86_64"):
        return "c/libcell.a is for x86-64 Linux"
    return None if shutil.which("cc") else "there is no C compiler `cc`"


def spinning(budget: int) -> str:
    """The line that defines FILES: a machine that spends this budget."""
    return f"FILES = {dict(SPIN, m=SPIN['m'].format(budget=budget))!r}\n"


def started(folder: pathlib.Path, script: str) -> "subprocess.Popen[str]":
    path = folder / "script.py"
    path.write_text(script)
    environment = {**os.environ, "PYTHONPATH": str(ROOT / "c")}
    return subprocess.Popen([sys.executable, str(path)], env=environment, stdout=subprocess.PIPE, stderr=subprocess.STDOUT, text=True, start_new_session=True)


def output_of(process: "subprocess.Popen[str]") -> str:
    """What it prints until it ends; its whole session is ended if that takes too long."""
    try:
        return process.communicate(timeout=SECONDS)[0]
    except subprocess.TimeoutExpired:
        os.killpg(process.pid, signal.SIGKILL)
        process.communicate()
        return f"no end within {SECONDS} seconds"


def printed(folder: pathlib.Path, script: str, wanted: str) -> Iterator[str]:
    found = output_of(started(folder, script))
    if found != wanted:
        yield f"prints {found!r}, and {wanted!r} is wanted"


def of_processes(_: Any, folder: pathlib.Path) -> Iterator[str]:
    """A refusal comes back from another process."""
    yield from printed(folder, POOL, "the source 1 BadOperand\n")


def of_interrupt(_: Any, folder: pathlib.Path) -> Iterator[str]:
    """Ctrl-C ends a hunt between two of its parts."""
    process = started(folder, spinning(20_000) + LONG_HUNT)
    assert process.stdout
    process.stdout.readline()
    time.sleep(1)
    process.send_signal(signal.SIGINT)
    found = output_of(process)
    if found != "interrupted\n":
        yield f"a hunt that is interrupted prints {found!r}"


def of_memory(_: Any, folder: pathlib.Path) -> Iterator[str]:
    """The steps of a long run take a tenth of the memory of a list."""
    found = output_of(started(folder, spinning(STEPS) + LONG_TRACE))
    head, _, memory = found.strip().partition("\n")
    if head != f"{STEPS},{STEPS},x 0":
        yield f"a trace of {STEPS} steps prints {found!r}"
    elif int(memory) > MOST_MEMORY:
        yield f"a trace of {STEPS} steps takes {memory} MiB, and at most {MOST_MEMORY} are wanted"


def of_names(_: Any, folder: pathlib.Path) -> Iterator[str]:
    """Names of many files aren't compared each with each."""
    yield from printed(folder, MANY_FILES, "b'code 0x00000 00000001\\nentry 0x00000\\n'\nAllStopped\n")


def of_pickles(cell: Any, _: pathlib.Path) -> Iterator[str]:
    """Each refusal is the same after it was pickled."""
    for error in (cell.CellError(4, "a"), cell.Misused(2, "b"), cell.NotRead(3, "c", "f"), cell.NotRead(3, "c", None), cell.Faulty(5, "d", "f", 7, "BadName"),
                  cell.Faulty(5, "d", None, None, None), cell.NoRun(6, "e"), cell.NoMemory(7, "g"), cell.LibraryMissing("h")):
        again = pickle.loads(pickle.dumps(error))
        if (type(again), str(again), again.__dict__) != (type(error), str(error), error.__dict__):
            yield f"{error!r} becomes {again!r} with {again.__dict__}"


def of_parts(cell: Any, _: pathlib.Path) -> Iterator[str]:
    """A hunt in parts prints what one hunt of all runs prints."""
    for machine in PARTS:
        files = cell.files_of(machine, ROOT)
        for start, runs in ((0, 1), (0, 70), (5, 33)):
            words = ["hunt", machine, "--runs", str(runs), "--seed", "3", "--from", str(start), "--json"]
            if cell.hunt(machine, files, runs=runs, seed=3, start=start).text != cell.ask(words, files).text.decode():
                yield f"{machine}: {runs} runs from {start} on have another sum in parts"


def of_arguments(cell: Any, _: pathlib.Path) -> Iterator[str]:
    """A wrong argument is named."""
    files: Dict[str, Any] = {"m": "cell-machine 1\nlines 1\nbudget 9\nspe\nsource s\n", "s": "stop 1\n"}
    record = cell.run("m", files)
    rows: List[Tuple[Callable[[], object], type, str]] = [
        (lambda: cell.hunt("m", files, runs=0), cell.Misused, "runs is 0: give a number from 1 to 4294967295"),
        (lambda: cell.hunt("m", files, runs=2**40), ValueError, "runs is 1099511627776"),
        (lambda: cell.hunt("m", files, runs=True), TypeError, "runs is True, of type bool"),
        (lambda: cell.hunt("m", files, runs=1.5), TypeError, "runs is 1.5, of type float"),
        (lambda: cell.hunt("m", files, runs="3"), TypeError, "runs is '3', of type str"),
        (lambda: cell.hunt("m", files, start=2**32 - 2, runs=2), ValueError, "start is 4294967294: give a number from 0 to 4294967293"),
        (lambda: cell.hunt("m", files, seed=-1), ValueError, "seed is -1"),
        (lambda: cell.hunt("m", files, expect=3), TypeError, "expect is of type int"),
        (lambda: cell.run("m", files, number=-1), ValueError, "number is -1"),
        (lambda: cell.run(None, files), TypeError, "machine is None, of type NoneType"),
        (lambda: cell.run("m", None), TypeError, "files is of type NoneType"),
        (lambda: cell.run("m", {**files, "s": 7}), TypeError, "files['s'] is of type int"),
        (lambda: cell.run("m", {**files, "\u00e9": "", "\udcc3\udca9": ""}), cell.Misused, "files has two names with the same bytes"),
        (lambda: cell.check("m", None, files), TypeError, "record is of type NoneType"),
        (lambda: cell.assemble(2**31), TypeError, "source is of type int"),
        (lambda: cell.assemble("\ud800"), ValueError, "source has a character that UTF-8 can't have"),
        (lambda: cell.ask(["gen", 4], {}), TypeError, "a word is 4, of type int"),
        (lambda: cell.files_of(3), TypeError, "machine is 3, of type int"),
    ]
    for call, kind, said in rows:
        try:
            yield f"'{said}' is wanted, and {call()!r} came"
        except Exception as error:
            if not isinstance(error, kind) or said not in str(error):
                yield f"{kind.__name__} '{said}' is wanted, and {error!r} came"
    if cell.run(pathlib.Path("m"), files) != record or cell.trace("m", record, files)[-1].line != "x 0":
        yield "a path or a record isn't taken"
    if not (ROOT / "c" / "cell" / "py.typed").is_file():
        yield "there is no c/cell/py.typed, so a type checker takes nothing from the package"


CHECKS = (of_processes, of_interrupt, of_memory, of_names, of_pickles, of_parts, of_arguments)
