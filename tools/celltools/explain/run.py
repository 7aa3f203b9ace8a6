"""Warns of what a record shows of its run: SPUs that halted, have a fault or ran into zeros, and that it is no run of the machine file explained before it."""
import contextlib
import os
import pathlib
import re
import tempfile
from typing import Dict, Iterator, Optional, Tuple

from celltools.common.texts import quoted, shown
from celltools.explain.report import in_latin
from celltools.run.runs import NO_RUN, Refused, verdict
from celltools.run.snapshots import Snapshot
from celltools.telling.backwards import TOOL, backwards
from celltools.telling.ended import FAULTS, HALTED, all_ended

ZEROS = "stopped 0x0000"  # also the status of an SPU that executed a `stop 0`
WRONG = re.compile(rf"spe (\d{{1,2}}) ((?:{'|'.join((*FAULTS, HALTED))})(?: \w+)?|{ZEROS}) pc .*".encode())


def machine_of(record: str, machines: Dict[str, bytes]) -> Optional[str]:
    """The machine file of a record among those that are explained before it: the one that is called as it is, or the only one."""
    base = os.path.splitext(record)[0]
    return next((name for name in machines if os.path.splitext(name)[0] == base), next(iter(machines)) if len(machines) == 1 else None)


@contextlib.contextmanager
def kept(*files: Tuple[str, bytes]) -> Iterator[Tuple[Snapshot, ...]]:
    """Texts that were read, in files."""
    with tempfile.TemporaryDirectory(prefix="cell-explain-") as folder:
        taken = tuple(Snapshot(f"{folder}/{number}", name) for number, (name, _) in enumerate(files))
        for file, (_, data) in zip(taken, files):
            pathlib.Path(file).write_bytes(data)
        yield taken


def wrong_in(data: bytes) -> Dict[int, Tuple[int, str]]:
    """The SPUs that may have ended wrongly by the states, each with the number of the line and the status."""
    lines = ((number, WRONG.fullmatch(line)) for number, line in enumerate(data.split(b"\n"), 1) if line.startswith(b"spe "))
    return {int(found[1]): (number, in_latin(found[2])) for number, found in lines if found}


def of_ends(name: str, data: bytes, ends: Dict[int, str]) -> Iterator[Tuple[str, str]]:
    """A warning of each fault and each halt: what it was, if that is known, or else how to see it. Of an SPU that ran into zeros there is one if that is known."""
    for spe, (number, status) in wrong_in(data).items():
        if spe in ends or status != ZEROS:
            yield f"{name}:{number}", "\n    ".join(map(shown, ends.get(spe, unknown_end(name, spe, status)).split("\n")))


def unknown_end(name: str, spe: int, status: str) -> str:
    what, seen = ("halted", "the instruction and its values") if status == HALTED else (f"has a fault, {status}", "the reason")
    return f"SPU {spe} {what}: tools/states MACHINE {quoted(name)} prints {seen}"


def explained_ends(called: str, machine: Snapshot, name: str, record: Snapshot) -> Dict[int, str]:
    """How each SPU ended that ended wrongly; the last of them has how to go backwards from there."""
    wrong = [ended for ended in all_ended(machine, record) if ended.has_failed or ended.ran_into_zeros]
    found = {ended.spe: ended.line for ended in wrong}
    if any(ended.has_failed for ended in wrong):
        found[wrong[-1].spe] += "\n" + backwards(f"tools/{TOOL}", f"{quoted(called)} {quoted(name)}", wrong)
    return found


def run_warnings(name: str, data: bytes, machines: Dict[str, bytes]) -> Iterator[Tuple[str, str]]:
    """The warnings of a record, each with its place."""
    called, ends = machine_of(name, machines), {}
    if called is not None:
        with kept((called, machines[called]), (name, data)) as (machine, record):
            try:
                verdict(machine, record)
                ends = explained_ends(called, machine, name, record) if wrong_in(data) else {}
            except Refused as why:
                if NO_RUN.search(str(why)):
                    yield name, "\n".join(map(shown, f"it is no run of {called}: {why}".split("\n")))
    yield from of_ends(name, data, ends)
