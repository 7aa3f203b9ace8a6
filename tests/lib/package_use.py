"""A program of a user of the Python package: tests/package runs it with an installed wheel, from another folder, and mypy checks its types strictly."""
import os
import pathlib
import sys
from typing import Callable, Dict, Iterator, List, Tuple

import cell

FILES: Dict[str, str] = {
    "m.cell": "cell-machine 1\nlines 1\nbudget 99\nspe\nsource m.s\n",
    "m.s": "_start: il $3,5\n ai $3,$3,-6\n stop 1\n",
}
PAIR: Dict[str, str] = {
    "p": "cell-machine 1\nlines 1\nbudget 999\nspe\nsource s\nspe\nsource s\n",
    "s": "_start: il $3,16\n wrch $ch19,$3\n il $4,0x20\n wrch $ch21,$4\n stop 1\n",
}


def plain_calls(folder: pathlib.Path) -> Iterator[Tuple[str, bool]]:
    """Each call that answers, with whether its answer is right."""
    run = cell.run("m.cell", FILES)
    yield "run", (run.end, run.steps, run.states.processors[0].registers) == ("AllStopped", 3, {3: 0xFFFFFFFF_FFFFFFFF_FFFFFFFF_FFFFFFFF})
    yield "check", cell.check("m.cell", run, FILES).is_accepted
    yield "permute", cell.permute("m.cell", run, FILES, 7).states == run.states
    yield "trace", [step.line for step in cell.trace("m.cell", run, FILES)] == ["x 0"] * 3
    yield "debug", cell.debug("m.cell", "dis 0 0 1\n", FILES) == "0x00000 0x40800283 il $3,5\n"
    image = cell.assemble(FILES["m.s"])
    words = [int.from_bytes(image.segments[0].data[at:at + 4], "big") for at in range(0, 12, 4)]
    yield "disassemble", cell.disassemble(words) == ["il $3,5", "ai $3,$3,-6", "stop 0x0001"]
    yield "many words", cell.disassemble([0] * 600, 0x100) == ["stop 0x0000"] * 600 and cell.disassemble([]) == []
    for name, text in FILES.items():
        (folder / name).write_text(text)
    files = cell.files_of(pathlib.Path("m.cell"), folder)
    yield "files_of", files == {name: text.encode() for name, text in FILES.items()}
    hunt = cell.hunt(pathlib.Path("p"), PAIR, runs=20)
    yield "hunt", (hunt.runs, hunt.is_clean, [finding.kind for finding in hunt.findings]) == (20, False, ["race"])
    yield "ask", cell.ask(["frob"], {}).status == 2


def refused_calls() -> Iterator[Tuple[str, bool]]:
    """Each call that is refused, with whether its exception is right."""
    try:
        cell.permute("p", cell.run("p", PAIR), PAIR, 1)
    except cell.Racy as why:
        yield "a race", why.said.startswith("race ") and why.status == 1
    try:
        cell.debug("m.cell", "dis 0 0 1\nfrob\n", FILES)
    except cell.Faulty as why:
        yield "a script", (why.file, why.line) == ("the script", 2)
    rows: List[Tuple[str, Callable[[], object]]] = [
        ("words[1]", lambda: cell.disassemble([1, 2**32])), ("address", lambda: cell.disassemble([1], 2)), ("address", lambda: cell.disassemble([1], 2**18)),
        ("number", lambda: cell.run("m.cell", FILES, number=-1)),
    ]  # fmt: skip
    for argument, call in rows:
        try:
            call()
        except cell.Misused as why:
            yield argument, argument in str(why)


def main() -> int:
    found = [*plain_calls(pathlib.Path(sys.argv[1])), *refused_calls()]
    wrong = [name for name, is_right in found if not is_right]
    there = os.path.dirname(cell.__file__)
    print(f"cell {cell.__version__}, {len(found)} answers, {len(wrong)} wrong", *wrong, there if "site-packages" not in there else "", sep="\n")
    return 1 if wrong or len(found) != 16 else 0


if __name__ == "__main__":
    sys.exit(main())
