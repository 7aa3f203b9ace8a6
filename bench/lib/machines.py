"""The machines that are measured, as files in a folder."""
import os
import pathlib
from typing import Callable, List, Tuple

from celltools.common.repository import ROOT

LINES = 128
SPES = 8
SOURCES = ("bench/transfer.s", "bench/lists.s", "bench/counter.s")
READERS = SPES - 1
READER_STEPS, WRITER_STEPS = 6, 4  # of one command, with its piece
Making = Callable[[int], pathlib.Path]  # makes the machine file of a budget


def head_of(lines: int, budget: int) -> str:
    return f"cell-machine 1\nlines {lines}\nbudget {budget}\n"


def machine_file(folder: str, source: str, budget: int, spes: int = 1, lines: int = 1) -> pathlib.Path:
    """Processors with one source."""
    name = pathlib.Path(folder, f"{os.path.basename(source)}.{budget}.{spes}.{lines}.cell")
    name.write_text(head_of(lines, budget) + f"spe\nsource {source}\n" * spes)
    return name


def filled(folder: str, source: str, name: str, **numbers: int) -> pathlib.Path:
    """A copy of a source of bench/ with numbers in the place of words."""
    text = (ROOT / "bench" / source).read_text()
    for word, number in numbers.items():
        text = text.replace(word, str(number))
    copy = pathlib.Path(folder, name)
    copy.write_text(text)
    return copy


def blocks(folder: str, budget: int, spes: int = SPES) -> pathlib.Path:
    """Processors that bring blocks, each its own, work on them and put them back."""
    sources = [filled(folder, "blocks.s", f"blocks.{spe}.s", BASE=2048 * spe) for spe in range(spes)]
    name = pathlib.Path(folder, f"blocks.{budget}.{spes}.cell")
    name.write_text(head_of(LINES, budget) + "".join(f"spe\nsource {source}\n" for source in sources))
    return name


def busy(folder: str) -> List[Tuple[str, Making]]:
    """Eight processors with blocks, or that transfer without a pause, by single commands and by lists, or raise one counter: titles, and what makes each."""
    def of_source(source: str) -> Making:
        return lambda budget: machine_file(folder, source, budget, SPES, LINES)
    return [("blocks", lambda budget: blocks(folder, budget)), *((source, of_source(source)) for source in SOURCES)]


def crowd(folder: str, budget: int) -> pathlib.Path:
    """Seven processors that read and one that then writes other bytes of their line."""
    reader = filled(folder, "reader.s", f"reader.{budget}.s", COUNT=int(0.62 * budget / READERS / READER_STEPS))
    writer = filled(folder, "writer.s", f"writer.{budget}.s", COUNT=int(0.37 * budget / WRITER_STEPS))
    host = "".join(f"host await {spe}\n" for spe in range(1, READERS + 1)) + "host send 0 1\n"
    name = pathlib.Path(folder, f"crowd.{budget}.cell")
    name.write_text(head_of(1, budget) + f"spe\nsource {writer}\n" + f"spe\nsource {reader}\n" * READERS + host)
    return name


def numbered(source: str, budget: int, lines: int) -> str:
    """The text of a machine of eight processors with one source of bench/, each of which has its number at 0x3000."""
    return head_of(lines, budget) + "".join(f"spe\nsource bench/{source}\nbytes 0x3000 {number:08x}{0:024x}\n" for number in range(SPES))
