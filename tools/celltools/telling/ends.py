"""Of a run that didn't end well, the processor at which to look first, and its last step."""
from typing import Iterable, NamedTuple, Optional


class Last(NamedTuple):
    """A processor with the place of its last step, -1 if it made none."""
    place: int
    spe: int


def first_to_see(failed: Iterable[Last], waiting: Iterable[Last]) -> Optional[Last]:
    """Of the processors that halted or have a fault, the first to do so; if none has, of those that wait the last one to begin. None if none waits either."""
    return min(failed, default=None) or max(waiting, default=None)
