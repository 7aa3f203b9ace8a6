"""How the programs of tests/ are called, ask side by side, print and end. What they ask has names: those of the command line are asked, or all. Of each that
fails stands `== NAME`, and what is wrong; the last line has the counts."""
import concurrent.futures
import difflib
import os
import sys
from typing import Callable, Dict, Iterable, Mapping, NoReturn, Optional, Sequence, Tuple, TypeVar

from celltools.common.repository import ROOT
from celltools.common.words import Words, number
from celltools.run.runs import Refused, prepare

Asked = TypeVar("Asked")
Faults = Iterable[str]
PASSED, FAILED, MISUSED = 0, 1, 2
SHOWN = 6  # names of what may be asked


def refuse(said: str) -> NoReturn:
    """Ends the program where it can't ask."""
    print(f"tests/{os.path.basename(sys.argv[0])}: {said}", file=sys.stderr)
    raise SystemExit(MISUSED)


def is_named(path: str, name: str) -> bool:
    """Whether something is meant by a name: its own, the end of its path, or a folder above it."""
    name = name.rstrip("/")
    return f"/{path}".endswith(f"/{name}") or path.startswith(f"{name}/")


def chosen(text: Optional[str], words: Sequence[str], known: Mapping[str, Asked]) -> Dict[str, Asked]:
    """Those that the words name, or all. `text` is the program's own, which --help prints."""
    reader = Words(text)
    reader.add_argument("names", nargs="*")
    names = reader.read(words, 0).names
    for name in names:
        if not any(is_named(path, name) for path in known):
            near = difflib.get_close_matches(name, known, SHOWN) or list(known)[:SHOWN]
            refuse(f"there is no {name}: there are {', '.join(near)}{', ..' if len(near) < len(known) else ''}")
    return {path: asked for path, asked in known.items() if not names or any(is_named(path, name) for name in names)}


def runs_and_seed(text: Optional[str], words: Sequence[str], usual: int) -> Tuple[int, int]:
    """How many random runs the words ask for, and the seed of the first of them."""
    reader = Words(text)
    reader.add_argument("runs", type=number, nargs="?", default=usual)
    reader.add_argument("seed", type=number, nargs="?", default=1)
    asked = reader.read(words, 0)
    return asked.runs, asked.seed


def build() -> None:
    """Sees that the programs are built, and that they are proved."""
    os.environ.pop("CELL_TRY", None)
    try:
        prepare()
    except Refused as why:
        refuse(str(why))


def judged(asked: Mapping[str, Asked], faults: Callable[[Asked], Faults], processes: bool = False) -> int:
    """Asks side by side, and prints what is wrong; the status of the program. By processes where the work is Python's own."""
    build()
    os.chdir(ROOT)
    kind = concurrent.futures.ProcessPoolExecutor if processes else concurrent.futures.ThreadPoolExecutor
    with kind(os.cpu_count()) as pool:
        return told(zip(asked, pool.map(Listed(faults), asked.values())))


class Listed:
    """A function that yields faults as one that answers them, for another process."""

    def __init__(self, faults: Callable[[Asked], Faults]) -> None:
        self.faults = faults

    def __call__(self, asked: Asked) -> Sequence[str]:
        return list(self.faults(asked))


def told(results: Iterable[Tuple[str, Faults]], more: str = "") -> int:
    """Prints the faults of each as they come, and the counts; the status of the program."""
    passed = failed = 0
    for name, faults in results:
        lines = list(faults)
        passed, failed = passed + (not lines), failed + bool(lines)
        if lines:
            print(f"== {name}", *lines, sep="\n", flush=True)
    print(f"{passed} passed, {failed} failed{more}")
    return FAILED if failed else PASSED
