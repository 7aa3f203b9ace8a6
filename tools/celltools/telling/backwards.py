"""The command that opens a run at its end, to go backwards from there, as ./hunt prints it."""
from typing import Iterable

from celltools.common.texts import quoted
from celltools.telling.ended import Ended

LABEL, TOOL = "backwards from its end", "debug"


def backwards(tool: str, files: str, ended: Iterable[Ended]) -> str:
    """The line with the command. `tool` is how the debugger is called, and `files` how the run is named. If an SPU halted, the line also has the commands that
    find the step which wrote the first register that the halt compared."""
    halted = next((it for it in ended if it.compared), None)
    then = f", then `run` and `last x{halted.spe} ${halted.compared[0]}`" if halted else ""
    return f"{LABEL}: {quoted(tool)} {files}{then}"
