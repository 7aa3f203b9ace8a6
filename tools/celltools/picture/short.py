"""The short record of a race: the steps that one of its two steps waits for, and last the two, as tools/witness makes it. It is drawn where a record has many
rows before its race."""
import dataclasses
import os
import tempfile
from typing import Dict, List, Optional, Sequence, Tuple

from celltools.picture.run import Run
from celltools.run.snapshots import Snapshot
from celltools.witness.search import FIRST, Race, Witness, judged, puts

MOST_ROWS = 200         # before the race, of a record that is drawn whole
MOST_STEPS = 200_000    # up to the race, of a record of which a short one is looked for


@dataclasses.dataclass(frozen=True)
class Whole:
    """The record that a short one is made of: its run, and of each step of the short one the place in it."""
    run: Run
    places: Sequence[int]

    @property
    def told(self) -> Dict[str, object]:
        """As the page has it."""
        return {"record": str(self.run.record), "count": self.run.count, "pair": self.run.pair}


def drawn(run: Run) -> Run:
    """The run that is drawn for a run: that of its short record, where it has many rows before its race and there is one; else itself."""
    pair = run.pair
    if not run.race or pair is None or rows_before(run.rows, pair[1]) <= MOST_ROWS or pair[1] > MOST_STEPS:
        return run
    with tempfile.TemporaryDirectory(prefix="cell-short-") as folder:
        witness = witness_of(run, pair, folder)
        if witness is None or len(witness.places) > pair[1]:
            return run
        record = Snapshot(os.path.join(folder, FIRST), f"the short record of {run.record}")
        with open(record, "w") as file:
            file.write(witness.text)
        return Run(run.machine, record, (len(witness.places) - 2, len(witness.places) - 1), Whole(run, witness.places))


def rows_before(rows: List[int], place: int) -> int:
    """How many rows come before a step: steps, and folded rows between them."""
    before = [-1, *(row for row in rows if row < place), place]
    return len(before) - 2 + sum(later > row + 1 for row, later in zip(before, before[1:]))


def witness_of(run: Run, pair: Tuple[int, int], folder: str) -> Optional[Witness]:
    """The first record of tools/witness; None where each way of putting its steps is refused."""
    race = Race(run.order, *pair)
    found = (judged(run.machine, folder, race, [*before, race.first, race.second]) for before in puts(race))
    return next((witness for witness in found if witness.is_taken), None)
