"""The words of the programs' command lines: bytes that aren't UTF-8, numbers in other spellings, and files without an end."""
import pathlib
import subprocess
from typing import Dict, Iterator, List, Sequence, Tuple, Union

from celltools.common.repository import ROOT, built
from lib.hostility.rows import Row

CELL, TRACER, HUNT = (str(built(program)) for program in ("cell_cli", "run_trace", "hunt"))
ODD = "\udcff"  # stands for the byte FF, which is nowhere in UTF-8
MACHINE, RECORD = "first.cell", "first.out"
BOTH = (MACHINE, RECORD)
NOT_UTF8 = "its name is not UTF-8$"
FORMS, HUNT_FORMS, TRACER_FORMS = "^cell: usage: cell run", "^hunt: usage: hunt MACHINE", "^run_trace: words: alone M.*, time M RECORD$"
Status = Union[int, Tuple[int, ...]]


def refused(name: str, words: Sequence[str], status: Status, said: str, files: Dict[str, bytes] = {}) -> Row:
    """A call that is refused at once, with an example's machine file and record, and prints nothing."""
    return Row(name, words, status, said, printed="", files=files, examples=BOTH, seconds=20, megabytes=512)


NAMES = [
    refused("a machine file", ["cell", "run", f"{ODD}.cell"], 3, f"^cell: cannot read machine file: {NOT_UTF8}", {f"{ODD}.cell": b""}),
    refused("a record file", ["cell", "check", MACHINE, f"r{ODD}"], 3, f"^cell: cannot read record file: {NOT_UTF8}"),
    refused("a name before a missing file", ["cell", "check", "missing.cell", ODD], 3, f"^cell: cannot read record file: {NOT_UTF8}"),
    refused("two names", ["cell", "permute", ODD, ODD, "1"], 3, f"^cell: cannot read machine file: {NOT_UTF8}"),
    refused("a script", ["cell", "debug", MACHINE, ODD], 3, f"^cell: cannot read script file: {NOT_UTF8}"),
    refused("a source", ["cell", "asm", f"a{ODD}"], 3, f"^cell: cannot read source 0: {NOT_UTF8}"),
    refused("a hunt's machine file", ["hunt", ODD, "3"], 3, "^hunt: cannot read machine file: the name of a file is not UTF-8$"),
    refused("a machine file of hunt itself", [HUNT, ODD, "3"], 3, "^hunt: cannot read machine file: the name of a file is not UTF-8$"),
    refused("an expectation file", ["hunt", MACHINE, "--expect", ODD], 3, "^hunt: cannot read expectation file: the name of a file is not UTF-8$"),
    refused("a pass file", [HUNT, MACHINE, "3", "--pass", f"p{ODD}"], 3, "^hunt: cannot read pass file: the name of a file is not UTF-8$"),
    refused("a record of run_trace", [TRACER, "effects", MACHINE, ODD], 3, f"^run_trace: cannot read record file: {NOT_UTF8}"),
    refused("a machine file of run_trace", [TRACER, "effects", ODD, ODD], 3, f"^run_trace: cannot read machine file: {NOT_UTF8}"),
    refused("a source of run_trace", [TRACER, "lines", f"a{ODD}"], 3, f"^run_trace: cannot read source 0: {NOT_UTF8}"),
    refused("a choice file", [TRACER, "choose", MACHINE, ODD], 3, f"^run_trace: cannot read choice file: {NOT_UTF8}"),
    refused("a choice file behind a record", [TRACER, "go", *BOTH, "1", ODD], 3, f"^run_trace: cannot read choice file: {NOT_UTF8}"),
    refused("a record to go on from", [TRACER, "go", MACHINE, ODD, "1", ODD], 3, f"^run_trace: cannot read record file: {NOT_UTF8}"),
    refused("a record to be timed", [TRACER, "time", MACHINE, ODD], 3, f"^run_trace: cannot read record file: {NOT_UTF8}"),
]

NO_FORMS = [
    refused("a form's name", ["cell", f"{ODD}run", MACHINE], 2, FORMS),
    refused("a word too many", ["cell", "run", MACHINE, ODD], 2, FORMS),
    refused("the number of gen", ["cell", "gen", f"1{ODD}"], 2, FORMS),
    refused("the number of permute", ["cell", "permute", *BOTH, ODD], 2, FORMS),
    refused("a number of runs that isn't UTF-8", [HUNT, MACHINE, ODD], 2, HUNT_FORMS),
    refused("a form of run_trace", [TRACER, ODD, *BOTH], 2, TRACER_FORMS),
]

NUMBERS = [
    *(refused("a spelling of runs", ["hunt", MACHINE, word], 2, HUNT_FORMS) for word in ("01", "+1", "", " 1", "1 ", "0x1", "00", "9" * 5000)),
    *(refused("a spelling of a seed", ["hunt", MACHINE, "1", word], 2, HUNT_FORMS) for word in ("01", "+1", "", "18446744073709551616")),
    *(refused("a spelling of each", ["hunt", MACHINE, "each", word], 2, HUNT_FORMS) for word in ("01", "+1")),
    *(refused("a spelling of a run", ["hunt", MACHINE, "record", word], 2, HUNT_FORMS) for word in ("00", "+0")),
    refused("a log with a place", [TRACER, "log", *BOTH, "3"], 2, TRACER_FORMS),
    *(refused("a spelling of a place", [TRACER, "before", *BOTH, word], 2, TRACER_FORMS) for word in ("00", "+0", "")),
    *(refused("a spelling of steps", [TRACER, "states", *BOTH, word], 2, TRACER_FORMS) for word in ("03", "+3")),
    *(refused("steps to go on from", [TRACER, "go", *BOTH, word, "c"], 2, TRACER_FORMS, {"c": b""}) for word in ("03", "+3")),
    Row("an expectation that is named like an option", ["hunt", MACHINE, "1", "--json", "--expect", "-x"], 0, printed=r'\A\{"part":3,.*"machine":"first\.cell"',
        files={"-x": b""}, examples=BOTH),
    Row("the greatest seed", ["hunt", MACHINE, "1", "18446744073709551615"], 0, printed=r"^first\.cell: 1 run, seed 18446744073709551615:", examples=BOTH),
    Row("run 0", ["hunt", MACHINE, "record", "0"], 0, printed="^cell-record 2$", examples=BOTH),
    Row("place 0", [TRACER, "before", *BOTH, "0"], 0, examples=BOTH),
]

ENDLESS = [
    refused("a machine file without an end", [TRACER, "alone", "/dev/zero"], 5, "^run_trace: machine file is too long"),
    refused("a record without an end", [TRACER, "effects", MACHINE, "/dev/zero"], 5, "^run_trace: record file is too long"),
    refused("choices without an end", [TRACER, "choose", MACHINE, "/dev/zero"], 5, "^run_trace: choice file is too long"),
    refused("a source without an end", [TRACER, "alone", "zero.cell"], 5, "^run_trace: source 0 is too long",
            {"zero.cell": b"cell-machine 1\nlines 1\nbudget 1\nspe\nsource /dev/zero\n"}),
    refused("a machine file of hunt without an end", [HUNT, "/dev/zero", "1"], 5, "^hunt: machine file is too long"),
    refused("a missing machine file of run_trace", [TRACER, "alone", "missing.cell"], 3, "^run_trace: cannot read machine file"),
    refused("a machine file without an end, of which the plan is asked", [TRACER, "plan", "/dev/zero"], 5, "^run_trace: machine file is too long"),
    refused("a missing machine file, of which the plan is asked", [TRACER, "plan", "missing.cell"], 3, "^run_trace: cannot read machine file"),
]

ROWS = [*NAMES, *NO_FORMS, *NUMBERS, *ENDLESS]


def status_of(program: str, words: Sequence[str]) -> int:
    """The status of a program whose own name isn't UTF-8."""
    command: List[Union[str, bytes]] = [b"\xff", *words]
    return subprocess.run(command, executable=pathlib.Path(ROOT, program), stdin=subprocess.DEVNULL, capture_output=True, timeout=120).returncode


def a_program_of_any_name() -> Iterator[str]:
    """The name of the program is no word of its."""
    calls: Sequence[Tuple[str, Sequence[str], int]] = ((CELL, ["asm", "/dev/null"], 0), (HUNT, [], 2), (TRACER, ["alone", "missing.cell"], 3))
    for program, words, wanted in calls:
        found = status_of(program, words)
        if found != wanted:
            yield f"{program} {' '.join(words)}: the status is {found}, not {wanted}"


CHECKS = [a_program_of_any_name]
