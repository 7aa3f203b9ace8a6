"""How programs end whose output goes nowhere, whose standard files are closed, whose folder is removed, or that are interrupted: with a status that says so, and
never with a traceback.
"""
import concurrent.futures
import os
import pathlib
import random
import signal
import subprocess
import tempfile
import time
from typing import Iterator, List, NamedTuple, Optional, Sequence

from celltools.common.repository import ROOT
from lib.hostility.rows import TRACEBACK, Row

RACY, RACY_RECORD = "examples/races/reuse_race.cell", "examples/races/reuse_race.out"
CALM, CALM_RECORD = "examples/first.cell", "examples/first.out"  # which has no sources: these would be named from a folder that isn't there


class Call(NamedTuple):
    """Words for which a program prints something, and the status that it has then."""
    words: List[str]
    status: int


RACE = Call(["tools/race", RACY, RACY_RECORD], 1)
STATES = Call(["tools/states", CALM, CALM_RECORD], 0)
LISTING = Call(["tools/listing", "examples/dma.s"], 0)
EXPLAIN = Call(["tools/explain", "faulty.cell"], 1)
FROM_GAS = Call(["tools/from_gas", "first.s"], 0)
DEBUG = Call(["tools/debug", CALM], 0)
PICTURE = Call(["tools/picture", RACY, RACY_RECORD], 0)
RUN = Call(["cell", "run", CALM], 0)
HUNT = Call(["hunt", RACY, "4"], 1)
RECORD = Call(["hunt", RACY, "record", "0"], 0)
CALM_RACE = Call(["tools/race", CALM, CALM_RECORD], 0)
CALM_HUNT = Call(["hunt", CALM, "4"], 0)
TOOLS = [RACE, LISTING, EXPLAIN, DEBUG, PICTURE]  # which write in different ways
PROGRAMS = [RUN, HUNT, RECORD]  # whose status is 4 where the output can't be written
FILES = {"faulty.cell": b"cell-machine 2\n", "first.s": b" nop\n"}
TYPED = b"step\nwhere\n"
NOTHING = r"\A\Z"
STARTS = 40  # that are interrupted
LATEST = 0.2  # seconds from a start to its interrupt
SECONDS = 120  # a bound for what never ends, also on a busy machine


def link_examples(folder: pathlib.Path) -> None:
    (folder / "examples").symlink_to(ROOT / "examples")


def redirected(name: str, how: str, words: Sequence[str], status: int, said: str = "", printed: Optional[str] = None) -> Row:
    """A row of a call with its standard files as a shell has them."""
    return Row(f"{words[0]} {name}", ["tests/lib/hostility/redirect", how, *words], status, said, printed, files=FILES, standard_input=TYPED,
               before=link_examples)


ROWS = [
    *(redirected("on a full disk", ">/dev/full", call.words, 2, said="standard output: No space left on device") for call in TOOLS),
    *(redirected("on a full disk", ">/dev/full", call.words, 4, said="cannot write|No space left on device") for call in PROGRAMS),
    *(redirected("without an output", ">&-", call.words, 2, said="standard output: Bad file descriptor") for call in (RACE, FROM_GAS)),
    *(redirected("without an output", ">&-", call.words, 4, said="cannot write") for call in (RUN, HUNT)),
    redirected("without an input", "<&-", DEBUG.words, 2, said=r"\Adebug: standard input: Bad file descriptor\n\Z"),
    *(redirected("without an input", "<&-", call.words, call.status, printed=".") for call in (RACE, HUNT, RUN)),
    redirected("without an error output", "2>&-", ["tools/race"], 2, printed=NOTHING),
    redirected("without an error output", "2>&-", ["tools/from_gas", "none.s"], 2, printed=NOTHING),
    redirected("without an error output", "2>&-", ["hunt", "none.cell", "4"], 3, printed=NOTHING),
    redirected("with a full error output", "2>/dev/full", ["tools/race"], 2, printed=NOTHING),
    # the status is that of what reads the output, which ends before it has read it all
    *(redirected("whose output isn't read", "| :", call.words, 0, said=r"\A((cell|hunt): cannot write\n)?\Z") for call in (PICTURE, HUNT)),
    # the shell may say that there is no folder
    *(redirected("in a removed folder", "gone", call.words, call.status, said=r"\A(.*getcwd.*\n)*\Z", printed=".")
      for call in (CALM_RACE, FROM_GAS, CALM_HUNT, RUN)),
]


def interrupted(words: Sequence[str], seconds: float) -> List[str]:
    """What is wrong where a program is interrupted so long after its start, with all that it has started."""
    with subprocess.Popen([ROOT / words[0], *words[1:]], cwd=ROOT, start_new_session=True,
                          stdin=subprocess.DEVNULL, stdout=subprocess.PIPE, stderr=subprocess.STDOUT) as process:
        time.sleep(seconds)
        # nobody has waited for it yet: its number is its own, also where it has ended
        os.killpg(process.pid, signal.SIGINT)
        try:
            said = process.communicate(timeout=SECONDS)[0]
        except subprocess.TimeoutExpired:
            os.killpg(process.pid, signal.SIGKILL)
            return [f"{' '.join(words)}, interrupted after {seconds:.3f} seconds: no end within {SECONDS} seconds"]
    if TRACEBACK in said or process.returncode not in (-signal.SIGINT, 130, 0, 1, 2):
        return [f"{' '.join(words)}, interrupted after {seconds:.3f} seconds: status {process.returncode}, {said.decode(errors='backslashreplace')}"]
    return []


def interrupts_are_quiet() -> Iterator[str]:
    """An interrupt at any time ends a program quietly."""
    calls = [call.words for call in (RACE, STATES, LISTING, DEBUG, PICTURE, HUNT, RUN)] + [["tools/explain", RACY], ["tools/from_gas", "examples/dma.s"]]
    chosen = [(calls[number % len(calls)], random.uniform(0, LATEST)) for number in range(STARTS)]
    with concurrent.futures.ThreadPoolExecutor(os.cpu_count()) as pool:
        for said in pool.map(lambda it: interrupted(*it), chosen):
            yield from said


def relative_names_in_a_removed_folder() -> Iterator[str]:
    """A tool that is called by a relative name in a folder that was removed can't tell where it is, and says so."""
    for tool in sorted([*(ROOT / "tools").iterdir(), *(ROOT / "tools" / "dev").iterdir()]):
        if tool.is_file() and tool.read_bytes().startswith(b'#!/bin/sh\n"trap"'):
            with tempfile.TemporaryDirectory(prefix="cell-gone-") as room:
                name = os.path.relpath(tool, os.path.join(os.path.realpath(room), "gone"))
                done = subprocess.run(["sh", "-c", 'mkdir gone && cd gone && rmdir ../gone && exec "$1" none none', "sh", name], cwd=room, capture_output=True,
                                      timeout=SECONDS)
            if not done.returncode or TRACEBACK in done.stderr:
                yield f"{tool.relative_to(ROOT)} by a relative name in a removed folder ends with status {done.returncode}, and says {done.stderr!r}"


CHECKS = [relative_names_in_a_removed_folder, interrupts_are_quiet]
