"""A source with the address and the first bytes of each of its lines, each word disassembled, and then the address of each label."""
from typing import Iterator

from celltools.common.texts import shown
from celltools.source.disassembly import instructions
from celltools.source.placed import Line, placed_lines

SHOWN = 4  # bytes of a line


def is_word(line: Line) -> bool:
    """Whether a line is one word of the text."""
    return line.in_text and len(line.data) == 4


def listing(name: str) -> Iterator[str]:
    """The lines of a listing."""
    lines = placed_lines(name)
    written = instructions({line.address: line.data for line in lines if is_word(line)})
    for line in lines:
        more = ".." if len(line.data) > SHOWN else ""
        place = f"{line.address:05x} {line.data[:SHOWN].hex()}{more}" if line.data else ""
        instruction = written[line.address] if is_word(line) else ""
        yield f"{line.number:4} {place:16} {instruction:25} {shown(line.text).expandtabs()}".rstrip()
    for line in lines:
        for label in line.labels:
            yield f"0x{line.address:05x} {label}"
