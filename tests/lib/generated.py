"""What `cell gen` has to say of a run of its machine, counted."""
import re
import subprocess
import pathlib

from celltools.common.repository import built
from celltools.run.records import steps_in
from celltools.run.runs import Path
from celltools.source.generated import write_machine

CELL = built("cell_cli")


def output(*words: Path) -> str:
    return subprocess.run([CELL, *words], capture_output=True, text=True, timeout=60, check=True).stdout


def counted(folder: pathlib.Path, n: int) -> str:
    """The summary, counted in the output of a run."""
    machine, record = write_machine(folder, n), folder / "record"
    run = output("run", machine)
    record.write_text(run)
    steps = steps_in(run)
    memory = bytes.fromhex("".join(re.findall(r"^mem \S+ (\w+)$", run, re.M)))
    words = [int.from_bytes(memory[at:at + 4], "big") for at in range(0, len(memory), 4)]
    total = sum(words) if set(words) == {n} else f"of words that aren't all {n}"
    (end,) = re.findall(r"^end \w+$", run, re.M)
    kinds = [sum(step.startswith(kind) for step in steps) for kind in "xp"]
    return f"gen {n}\n{end}\nsteps {len(steps)}\nexec {kinds[0]}\npieces {kinds[1]}\nsum {total}\n" + output("check", machine, record)
