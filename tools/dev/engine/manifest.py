"""The checksums of what is committed, and of what it was made of: page/MANIFEST has a line for each, a name and the checksum."""
import hashlib
import pathlib
import re
from typing import Dict, Iterator, List, Tuple

from celltools.common.repository import ROOT
from engine.faults import Failed

CRATE = "cell_library"
ARCHIVE, MODULE = ROOT / "c" / "libcell.a", ROOT / "page" / "cell.wasm"
MADE = ARCHIVE, MODULE
MANIFEST = ROOT / "page" / "MANIFEST"
TOOLS = ROOT / "tools" / "dev"
PARTS = ("src", "specs", "proofs")  # of a crate, of which it is proved and built
ROW = re.compile(r"(\w+)[^:#]*:([^#]*)")


def name_of(path: pathlib.Path) -> str:
    return str(path.relative_to(ROOT))


def sum_of_bytes(data: bytes) -> str:
    return hashlib.sha256(data).hexdigest()


def sum_of(path: pathlib.Path) -> str:
    return sum_of_bytes(path.read_bytes())


def sum_of_files(paths: List[pathlib.Path], front: str = "") -> str:
    """The checksum of files with their names, and of a text before them."""
    return sum_of_bytes("\n".join([front, *(f"{name_of(path)} {sum_of(path)}" for path in sorted(paths))]).encode())


class Crates:
    """The crates of this repository, by crates.txt."""

    def __init__(self) -> None:
        rows = map(ROW.match, (ROOT / "crates.txt").read_text().splitlines())
        self.rows: Dict[str, Tuple[str, List[str]]] = {row[1]: (row[0], row[2].split()) for row in rows if row}

    def uses(self, crate: str) -> List[str]:
        """The crates that one uses, of this repository and of the kit."""
        if crate not in self.rows:
            raise Failed(f"crates.txt has no crate {crate}")
        return self.rows[crate][1]

    def below(self, crate: str) -> List[str]:
        """The crates of this repository below one, each behind those that it uses."""
        found: List[str] = []
        for used in self.uses(crate):
            if used in self.rows:
                found += [one for one in [*self.below(used), used] if one not in found]
        return found

    def checksum(self, crate: str) -> str:
        """The checksum of all that a crate is proved and built of."""
        crates = sorted([*self.below(crate), crate])
        rows = "\n".join(self.rows[one][0].strip() for one in crates)
        return sum_of_files([path for one in crates for path in files_of(one)], rows)


def files_of(crate: str) -> Iterator[pathlib.Path]:
    for part in PARTS:
        yield from (path for path in (ROOT / "crates" / crate / part).rglob("*") if path.is_file())


def sum_of_tools() -> str:
    """The checksum of the tools that make the module."""
    folder = TOOLS / "engine"
    return sum_of_files([TOOLS / "wasm", *(path for kind in ("*.py", "*.c", "*.h") for path in folder.rglob(kind))])


def lines_now(kit: str) -> Dict[str, str]:
    """The lines of the manifest of what is there now."""
    sums = {"kit": kit, "sources": Crates().checksum(CRATE), "tools": sum_of_tools()}
    return {**sums, **{name_of(path): sum_of(path) for path in MADE}}


def lines_kept() -> Dict[str, str]:
    """The lines of the manifest, none where there is no manifest."""
    lines = MANIFEST.read_text().splitlines() if MANIFEST.exists() else []
    return dict(line.split(" ", 1) for line in lines if " " in line)


def text_of(lines: Dict[str, str]) -> str:
    return "".join(f"{name} {told}\n" for name, told in lines.items())
