#!/bin/sh
"trap" "" "INT"  # sh reads these two lines, and Python the others: tools/celltools/common/starting.py says why
"exec" "python3" "$0" "$@"
__doc__ = """Usage: tools/dev/layers.py [--svg | --write]

Draws the layers of the crates, as crates.txt has them, and the way of a program's run through them. In crates.txt a layer begins with a line
`# ---- NAME: WHAT`; the comments after it describe what a run does there, and then come its crates.

Options:
  --svg    print the drawing as a picture, with what a run does in each layer
  --write  put the drawing into docs/inside/architecture.md, as its first block, and the picture into docs/inside/layers.svg

Exit status:
  0  done
  1  a crate uses one that doesn't come before it
"""
import os
import sys

sys.excepthook = lambda kind, why, trace: os._exit(print(f"{sys.argv[0]}: {why}", file=sys.stderr) or 2)  # where its own folder can't be told
sys.path.insert(0, os.path.dirname(os.path.dirname(os.path.realpath(__file__))))
import celltools.common.starting  # noqa: E402, F401  (before all others)

import dataclasses
import html
import re
import textwrap
from typing import Dict, Iterator, List, Set, Tuple

from celltools.common.ending import end
from celltools.common.repository import ROOT
from celltools.common.words import Words

CRATES = ROOT / "crates.txt"
PAGE = ROOT / "docs" / "inside" / "architecture.md"
PICTURE = ROOT / "docs" / "inside" / "layers.svg"
HEADING = re.compile(r"# ---- ([\w ]+): (.+)")
CRATE = re.compile(r"(\w+)(?: [^:#]*)?:([^#]*)")
FIRST_BLOCK = re.compile(r"(?:^    .*\n)+", re.M)
COLUMNS = (12, 48, 56)  # characters of the name, the crates and the words
WAYS = {
    "run": "Programs > Texts, Sources > Runs > Machine, which asks Instructions and Parts, step by step > Texts",
    "check": "Programs > Texts, Sources > Machine > Order > Texts",
    "permute": "Programs > Texts, Sources > Machine > Order > Other orders > Machine > Texts",
    "hunt": "Programs > Texts, Sources > Runs > Machine, Order > Texts, Hunts, run by run > Hunts",
}
PASSED, FAILED = 0, 1

# The picture, in its own units: a line of text, the free room of a box, and of each column its left edge and how many characters go into a line of it.
LINE, ROOM, WIDTH = 16, 10, 1080
NAMES, IN_CRATES, IN_WORDS = 16, (136, 46), (486, 54)
FORMS = 868, 60  # the first column of the ways, and from each to the next
STYLE = (
    "text { font: 13px sans-serif; fill: #222 } .name { font-weight: bold } .crates { font: 12px monospace } .what { fill: #444; font-size: 12px }"
    " .form { text-anchor: middle; font-weight: bold } .stage { text-anchor: middle; fill: #fff; font-size: 11px } circle { fill: #3b6ea5 }"
)


@dataclasses.dataclass
class Layer:
    name: str
    what: str
    said: List[str] = dataclasses.field(default_factory=list)  # of a run, by the comments
    uses: Dict[str, List[str]] = dataclasses.field(default_factory=dict)  # by its crates

    def words(self) -> str:
        return f"{self.what[0].upper()}{self.what[1:]}. {' '.join(self.said)}"


def layers_of(text: str) -> List[Layer]:
    """The layers of a crates.txt, the lowest first."""
    layers: List[Layer] = []
    for line in text.splitlines():
        heading, crate = HEADING.fullmatch(line), CRATE.match(line)
        if heading:
            layers.append(Layer(heading[1], heading[2]))
        elif crate:
            layers[-1].uses[crate[1]] = crate[2].split()
        elif line.startswith("# ") and layers:
            layers[-1].said.append(line.removeprefix("# "))
    return layers


def faults_of(layers: List[Layer]) -> Iterator[str]:
    """The crates that use one which doesn't stand before them."""
    crates = {crate for layer in layers for crate in layer.uses}
    before: Set[str] = set()
    for crate, uses in (item for layer in layers for item in layer.uses.items()):
        yield from (f"{crate} uses {used}, which stands behind it" for used in uses if used in crates - before)
        before.add(crate)


def rows_of(layer: Layer) -> Iterator[str]:
    """The lines of a layer."""
    columns = [textwrap.wrap(text, width) for text, width in zip((layer.name, "  ".join(layer.uses), layer.what), COLUMNS)]
    for place in range(max(map(len, columns))):
        cells = (f" {column[place] if place < len(column) else '':{width}} " for column, width in zip(columns, COLUMNS))
        yield f"|{'|'.join(cells)}|"


def drawing(layers: List[Layer]) -> str:
    """The layers, the highest first, and the ways through them."""
    rule = "+" + "+".join("-" * (width + 2) for width in COLUMNS) + "+"
    lines = [rule, *(row for layer in reversed(layers) for row in rows_of(layer)), rule]
    return "".join(f"    {line}\n" for line in [*lines, *(f"{form:8} {way}" for form, way in WAYS.items())])


def stages_of(layer: Layer, way: str) -> List[int]:
    """At which stages a way comes through a layer, counted from 1."""
    return [stage for stage, through in enumerate(way.split(" > "), 1) if re.search(rf"\b{layer.name}\b", through)]


def text_at(left: int, line: int, kind: str, text: str) -> str:
    return f'<text x="{left}" y="{line}" class="{kind}">{html.escape(text)}</text>'


def stages_drawn(layer: Layer, middle: int) -> Iterator[str]:
    """The stages of each way at a layer, as numbers in circles side by side."""
    left, apart = FORMS
    for column, way in enumerate(WAYS.values()):
        stages = stages_of(layer, way)
        for place, stage in enumerate(stages):
            at = left + apart * column + 20 * place - 10 * (len(stages) - 1)
            yield f'<circle cx="{at}" cy="{middle}" r="9"/>'
            yield text_at(at, middle + 4, "stage", str(stage))


def box_of(layer: Layer, top: int) -> Tuple[List[str], int]:
    """A layer's box, and where the next one begins."""
    crates = textwrap.wrap("  ".join(layer.uses), IN_CRATES[1])
    words = textwrap.wrap(layer.words().replace("`", ""), IN_WORDS[1])
    height = LINE * max(len(crates), len(words)) + ROOM
    box = [f'<rect x="4" y="{top}" width="{WIDTH - 8}" height="{height}" rx="4" fill="#f4f6f9" stroke="#9aa7b8"/>']
    box.append(text_at(NAMES, top + LINE + 2, "name", layer.name))
    box += [text_at(IN_CRATES[0], top + LINE * (line + 1) + 2, "crates", text) for line, text in enumerate(crates)]
    box += [text_at(IN_WORDS[0], top + LINE * (line + 1) + 2, "what", text) for line, text in enumerate(words)]
    return [*box, *stages_drawn(layer, top + height // 2)], top + height + 4


def picture(layers: List[Layer]) -> str:
    """The layers as an SVG, the highest first, with the stages of each way."""
    left, apart = FORMS
    lines = [text_at(left + apart * column, 18, "form", form) for column, form in enumerate(WAYS)]
    top = 28
    for layer in reversed(layers):
        box, top = box_of(layer, top)
        lines += box
    head = f'<svg xmlns="http://www.w3.org/2000/svg" viewBox="0 0 {WIDTH} {top}" width="{WIDTH}" height="{top}">'
    made = "<!-- made from crates.txt by tools/dev/layers.py: edit crates.txt, not this -->"
    return "\n".join([head, made, f"<style>{STYLE}</style>", f'<rect width="{WIDTH}" height="{top}" fill="#fff"/>', *lines, "</svg>", ""])


def with_drawing(page: str, drawn: str) -> str:
    """The page with this drawing as its first block."""
    return FIRST_BLOCK.sub(lambda _: drawn, page, count=1)


def main(words: List[str]) -> int:
    reader = Words(__doc__)
    ways = reader.add_mutually_exclusive_group()
    ways.add_argument("--svg", action="store_true")
    ways.add_argument("--write", action="store_true")
    asked = reader.read(words, 0)
    layers = layers_of(CRATES.read_text())
    faults = list(faults_of(layers))
    print(*(f"layers.py: {fault}" for fault in faults), sep="\n", end="\n" if faults else "", file=sys.stderr)
    if asked.write:
        PAGE.write_text(with_drawing(PAGE.read_text(), drawing(layers)))
        PICTURE.write_text(picture(layers))
    else:
        print(picture(layers) if asked.svg else drawing(layers), end="")
    return FAILED if faults else PASSED


if __name__ == "__main__":
    end(main)
