"""What tools/picture is asked for, and the page that it answers."""
from typing import Iterator, Optional, Sequence

from celltools.common.words import Words, number
from celltools.picture.page import page_of
from celltools.picture.run import Run
from celltools.picture.short import drawn
from celltools.run.hunted import Asked, asked_of


def asked_for(text: Optional[str], words: Sequence[str]) -> Asked:
    """What the words ask for, by a program with this text."""
    reader = Words(text)
    reader.add_argument("--whole", action="store_true")
    reader.add_argument("--race", type=number, nargs=2)
    return asked_of(reader, words)


def parts_of(asked: Asked) -> Iterator[str]:
    """The parts of the page, one after the other."""
    with asked.recorded() as (machine, record):
        run = Run(machine, record, asked.options.race)
        yield from page_of(run if asked.options.whole else drawn(run))
