"""The machine that docs/reference/generator.md describes: the one of `cell gen`."""
import pathlib
import re

from celltools.common.repository import ROOT

SPES, LINES, BUDGET = 8, 128, 1_000_000
BLOCK = 2_048
SHOWN = 4_096  # bytes at most in one line


def source() -> str:
    """The source in the docs: their block that is set off by four spaces, and has a label `round`."""
    text = (ROOT / "docs" / "reference" / "generator.md").read_text()
    block = next(it for it in re.findall(r"(?:^    .*\n)+", text, re.M) if "round:" in it)
    return re.sub(r"^    ", "", block, flags=re.M)


def write_machine(folder: pathlib.Path, n: int) -> pathlib.Path:
    """The machine file of the docs, and its sources."""
    name = folder / f"generated.{n}.cell"
    lines = ["cell-machine 1", f"lines {LINES}", f"budget {BUDGET}"]
    for spe in range(SPES):
        own = folder / f"generated.{n}.{spe}.s"
        own.write_text(source().replace("BASE", str(BLOCK * spe)).replace("$7,N", f"$7,{n}"))
        lines += ["spe", f"source {own}"]
    lines += [f"show mem {at} {SHOWN}" for at in range(0, 128 * LINES, SHOWN)]
    name.write_text("\n".join(lines) + "\n")
    return name
