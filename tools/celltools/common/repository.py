"""Where the files of this repository are that the programs ask or read."""
import os
import pathlib
import sys

ROOT = pathlib.Path(__file__).resolve().parents[3]
LAUNCH = ROOT / "tools" / "launch"
CELL = ROOT / "cell"
PROGRAMS = ("cell_cli", "hunt", "run_trace")  # the proved ones


def built(program: str) -> pathlib.Path:
    """The path of one of PROGRAMS, once it is built."""
    return ROOT / "crates" / program / "out" / program


def shipped(program: str) -> pathlib.Path:
    """The path of one of PROGRAMS in bin/, from which it runs in a checkout that can't be written."""
    return ROOT / "bin" / program


def called_folder() -> str:
    """The folder of the tools as the user calls it: tools/ if it is there, else as this call names it."""
    own = ROOT / "tools"
    return next((name for name in ("tools", os.path.dirname(sys.argv[0])) if pathlib.Path(name).resolve() == own), str(own))


def called(tool: str) -> str:
    """How a tool is called from the current folder: as tools/NAME if that is there, else by its whole name."""
    name = pathlib.Path("tools", tool)
    return str(name if name.exists() else ROOT / name)


def version() -> str:
    """The version of this product, which the file VERSION has."""
    return (ROOT / "VERSION").read_text(encoding="ascii").strip()


def program_sources(in_place: bool) -> str:
    """The checksum of the sources of the proved programs: the mark of the build has it, and of those of bin/ the manifest."""
    mark = built("cell_cli").with_name("built")
    if mark.is_file() and not in_place:
        return mark.read_text(encoding="ascii").strip()
    lines = shipped("MANIFEST").read_text(encoding="ascii").splitlines()
    return next(line.partition(" ")[2] for line in lines if line.startswith("sources "))
