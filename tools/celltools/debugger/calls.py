"""The call that a processor hasn't come back from, as the steps that were made tell it."""
from typing import Optional

from celltools.run.stepping import Run
from celltools.source.sites import Calls, Sites


def open_call(run: Run, sites: Sites, spe: int) -> Optional[int]:
    """The address of the branch that called the routine in which a processor is; None where it is in none that a brsl, brasl or bisl called."""
    calls = Calls(sites)
    for place in range(run.place):
        if run.trace.lines[place].startswith(f"x {spe} "):
            calls.take(place, run.trace.lines[place])
    return calls.innermost(spe, run.state().spes[spe].pc)
