"""The run of a hunt in the place of a record: how the tools are asked for one, and its record, which ./hunt makes."""
import argparse
import contextlib
import dataclasses
import functools
from typing import Iterator, Optional, Sequence, Tuple

from celltools.common.texts import quoted
from celltools.common.words import Words, input_name, number, number_up_to
from celltools.run.runs import Refused, asked, next_step, said_of
from celltools.run.snapshots import Snapshot, snapshots

MOST_SEED = 0xFFFF_FFFF_FFFF_FFFF
FIRST_SEED = 1
MACHINE_AND_RECORD = "a machine file and a record, or a machine file and --run K"


@dataclasses.dataclass(frozen=True)
class Asked:
    """What the words of a command line name: a machine file, its record or a hunt's run, and the words behind them; and the other options."""
    machine: str
    record: Optional[str]  # None where it is a hunt's run, or where none is named
    run: Optional[int]
    seed: int
    rest: Tuple[str, ...]
    options: argparse.Namespace

    def spelled(self) -> str:
        """How the record or the run is named to another tool, with the machine file, as a shell takes it."""
        if self.run is None:
            return f"{quoted(self.machine)} {quoted(self.record)}"
        return f"--run {self.run} {'' if self.seed == FIRST_SEED else f'--seed {self.seed} '}{quoted(self.machine)}"

    @contextlib.contextmanager
    def files(self) -> Iterator[Tuple[Snapshot, Optional[Snapshot]]]:
        """The machine file and the record, as they are now."""
        with snapshots(self.machine, self.record) as (machine, record):
            yield machine, record if self.run is None else record_of_hunt(machine, self.run, self.seed)

    @contextlib.contextmanager
    def recorded(self) -> Iterator[Tuple[Snapshot, Snapshot]]:
        """The same, where a record is needed."""
        with self.files() as (machine, record):
            if record is None:
                raise Refused("name a record")
            yield machine, record


def asked_of(reader: Words, words: Sequence[str], rest: int = 0, needs_record: bool = True) -> Asked:
    """What the words ask for, of which up to `rest` stand behind the files. The forms are MACHINE RECORD and --run K [--seed S] MACHINE, and MACHINE alone where
    no record is needed; the reader has the other options. Where they are none of these, the program ends."""
    reader.add_argument("--run", type=number)
    reader.add_argument("--seed", type=functools.partial(number_up_to, MOST_SEED))
    reader.add_argument("names", type=input_name, nargs="*")
    options = reader.read(words)
    names, of_hunt = options.names, options.run is not None
    least = 1 if of_hunt or not needs_record else 2
    files = 1 if of_hunt else min(2, len(names))
    if len(names) < least:
        reader.error(f"give {MACHINE_AND_RECORD}")
    if len(names) > files + rest:
        reader.error(f"unexpected argument '{names[files + rest]}'")
    if options.seed is not None and not of_hunt:
        reader.error("--seed requires --run K")
    seed = FIRST_SEED if options.seed is None else options.seed
    return Asked(names[0], None if of_hunt or files < 2 else names[1], options.run, seed, tuple(names[files:]), options)


def record_of_hunt(machine: Snapshot, number: int, seed: int = FIRST_SEED) -> Snapshot:
    """The record of a hunt's run, put beside the copy of the machine file."""
    done = asked("hunt", machine, "record", str(number), str(seed))
    if not done.stdout.startswith("cell-record"):
        said = said_of(done).replace(f": {machine.path}", "")  # the copy's name means nothing to a user
        raise Refused(said + next_step(said, machine, ""))
    record = Snapshot(f"{machine.path}-record", f"run {number} of the hunt with seed {seed}")
    with open(record, "w") as file:
        file.write(done.stdout)
    return record
