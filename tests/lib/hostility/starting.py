"""How programs start: each tool under each Python that is there, without the settings on which it might hang, and with locales that have no letters but ASCII."""
import concurrent.futures
import functools
import glob
import os
import pathlib
import re
import shutil
import subprocess
import sys
import tempfile
from typing import Dict, Iterator, List, Optional, Set, Tuple

from celltools.common.repository import ROOT
from lib import keeping
from lib.hostility.rows import TRACEBACK, Row, ended, shown

TOOLS = ("debug", "explain", "from_gas", "hint", "hunts", "listing", "picture", "race", "site_lines", "states", "vectors", "witness")
OLDEST = (3, 9)
FOLDERS = ["/usr/bin", "/usr/local/bin", *glob.glob(os.path.expanduser("~/.pyenv/versions/*/bin")),
           *(folder for folder in os.environ["PATH"].split(":") if os.path.basename(folder) != "shims")]
# Options of Python, and what is set: each start takes one of these.
PLAIN = {"PYTHONSAFEPATH": "1", "LC_ALL": "C", "PYTHONIOENCODING": "ascii"}
SETTINGS: List[Tuple[List[str], Dict[str, str]]] = [(["-I", "-S"], {"LC_ALL": "C"}), ([], PLAIN)]
# Loads programs, as `import` does with a module, each with its own folder in front, where Python looks first.
LOAD = """
import os, runpy, sys
for path in sys.argv[1:]:
    sys.argv[0], sys.path[0] = path, os.path.dirname(path)
    runpy.run_path(path)
"""
SECONDS = 120
MEGABYTES = 2048
CYRILLIC = "\u0436.s"
# Pythons with which no part of a hunt is made: too old, of which the output can't be written, and interrupted. A report needs none.
OTHERS = "exit 2", "echo half; exit 4", "echo half; exit 130"
NO_PART = r"hunt: --json requires tools/site_lines, which needs the package python3 and ended with status \d+: nothing was run\n\Z"
# A Python that lacks modules, as Debian's python3-minimal does.
LACKING = """
import os, runpy, sys
class Lacking:
    def find_spec(self, name, path=None, target=None):
        if name in {lacked!r}:
            raise ModuleNotFoundError("No module named " + name, name=name)
sys.meta_path.insert(0, Lacking())
sys.argv = sys.argv[2:]
sys.path[0] = os.path.dirname(sys.argv[0])
runpy.run_path(sys.argv[0], run_name="__main__")
"""
WITHOUT_PYTHON: List[Tuple[List[str], int, str, str]] = [([], 0, r"\A\Z", r"(?s)\Afirst\.cell: 4 runs, seed 1: (?!.*half)"), (["--json"], 2, NO_PART, "")]
LACKED = ("json", "dataclasses", "bisect", "statistics", "difflib")  # which libpython3.11-minimal hasn't


def version_of(path: str) -> Optional[Tuple[int, int]]:
    """The version of a Python; None of a program that is none."""
    done = subprocess.run([path, "-I", "-S", "-c", "import sys; print(*sys.version_info[:2])"], stdout=subprocess.PIPE, stderr=subprocess.DEVNULL)
    numbers = done.stdout.split()
    return (int(numbers[0]), int(numbers[1])) if done.returncode == 0 and len(numbers) == 2 else None


@functools.cache
def pythons() -> List[str]:
    """The Pythons of this machine for which the tools are written, one of each version, by their versions."""
    names = re.compile(r"python3(\.\d+)?")
    paths = [path for folder in FOLDERS for path in sorted(glob.glob(f"{folder}/python3*")) if names.fullmatch(os.path.basename(path))]
    seen: Set[str] = set()
    found: Dict[Tuple[int, int], str] = {}
    for path in paths:
        if os.path.realpath(path) in seen:
            continue
        seen.add(os.path.realpath(path))
        version = version_of(path)
        if version and version >= OLDEST:
            found.setdefault(version, path)
    return [found[version] for version in sorted(found)]


def usage_faults(python: str, number: int) -> Iterator[str]:
    """What is wrong with the usage texts of the tools under a Python."""
    for place, tool in enumerate(TOOLS):
        options, environment = SETTINGS[(number + place) % len(SETTINGS)]
        command = [python, *options, str(ROOT / "tools" / tool)]
        found = ended(command, ROOT, SECONDS, MEGABYTES, environment=environment)
        if found is None or found.status != 2 or b"Usage: tools/" not in found.error or TRACEBACK in found.error:
            yield "\n".join([" ".join(command), *(shown(found) if found else [])])


def each_tool_starts() -> Iterator[str]:
    """Each tool tells its usage under each Python; where all did, it is asked again when it or a tool has changed."""
    tools, test = keeping.of_tools(), keeping.of_test("hostile")
    with concurrent.futures.ThreadPoolExecutor(os.cpu_count()) as pool:
        marks = [keeping.mark_of("starts", str(number).encode(), keeping.of_program(python), tools, test) for number, python in enumerate(pythons())]
        asked = [functools.partial(usage_faults, python, number) for number, python in enumerate(pythons())]
        for said in pool.map(keeping.unless_kept, marks, asked):
            yield from said


def each_test_loads() -> Iterator[str]:
    """The programs of tests/ and their modules load under the oldest and the newest Python; where all did, they are loaded again when one has changed."""
    files = keeping.of_files(ROOT / "tests", ROOT / "examples")
    yield from keeping.unless_kept(keeping.mark_of("loads", files, keeping.of_tools(), *map(keeping.of_program, pythons())), loading_faults)


def loading_faults() -> Iterator[str]:
    """What is wrong with their loading."""
    programs = [str(path) for path in sorted((ROOT / "tests").iterdir()) if path.is_file() and os.access(path, os.X_OK)]
    for python in {pythons()[0], pythons()[-1]}:
        found = ended([python, "-S", "-c", LOAD, *programs], ROOT, SECONDS, MEGABYTES)
        if found is None or found.status:
            yield "\n".join([f"{python} loads not all programs of tests/", *(shown(found) if found else [])])


def minimal_tells_its_package() -> Iterator[str]:
    """Under a Python without some modules each tool that needs them ends with status 2 and names the package, also if it would find no race; a hunt needs none, and
    with --json runs nothing."""
    with tempfile.TemporaryDirectory(prefix="cell-minimal-") as room:
        folder = pathlib.Path(room)
        (folder / "lacking.py").write_text(LACKING.format(lacked=LACKED))
        (folder / "python3").write_text(f'#!/bin/sh\nexec {sys.executable} {folder}/lacking.py "$@"\n')
        (folder / "python3").chmod(0o755)
        environment = {"PATH": f"{folder}:{os.environ['PATH']}"}
        calls: List[Tuple[List[str], int, str]] = [
            (["tools/race", "examples/first.cell", "examples/first.out"], 2, r"race: .*this Python has no module \w+: install the package python3"),
            (["tools/hunts", "-"], 2, "install the package"),
            (["hunt", "examples/first.cell", "4", "--json"], 2, NO_PART), (["hunt", "examples/first.cell", "4"], 0, r"\A\Z"),
        ]  # fmt: skip
        for words, status, said in calls:
            found = ended([str(ROOT / words[0]), *words[1:]], ROOT, SECONDS, MEGABYTES, environment=environment)
            if found is None or found.status != status or not re.search(said, found.error.decode()) or bool(found.output) == bool(status) or TRACEBACK in found.error:
                yield "\n".join([f"{' '.join(words)} with few modules", *(shown(found) if found else [])])


def unreadable_modules_are_told() -> Iterator[str]:
    """A tool whose modules can't be read, or that finds no Python at all, ends with status 2."""
    with tempfile.TemporaryDirectory(prefix="cell-unread-") as room:
        folder = pathlib.Path(room)
        (folder / "tools").mkdir()
        shutil.copy(ROOT / "tools" / "race", folder / "tools")
        alone = ended([str(folder / "tools" / "race")], folder, SECONDS, MEGABYTES)
        for name in ("sh", "env"):
            (folder / name).symlink_to(shutil.which(name) or name)
        without = ended([str(ROOT / "tools" / "race")], folder, SECONDS, MEGABYTES, environment={"PATH": str(folder)})
        for found, said in ((alone, b"can't start: No module named 'celltools"), (without, b"race: there is no python3: install the package python3\n")):
            if found is None or found.status != 2 or said not in found.error or TRACEBACK in found.error:
                yield "\n".join([f"`{said.decode()}` is wanted", *(shown(found) if found else [])])


ROWS = [
    Row("a race under plain settings", ["tools/race", "examples/races/reuse_race.cell", "examples/races/reuse_race.out"], 1, printed=r"\Arace 10 14\n",
        before=lambda folder: (folder / "examples").symlink_to(ROOT / "examples"), environment=PLAIN),
    Row("states under plain settings", ["tools/states", "examples/first.cell", "examples/first.out"], 0, printed=r"^end AllStopped\n",
        before=lambda folder: (folder / "examples").symlink_to(ROOT / "examples"), environment=PLAIN),
    *(Row("a hunt without a Python", ["hunt", "first.cell", "4", *more], status, said=said, printed=printed, examples=["first.cell"],
          files={"python3": f"#!/bin/sh\n{script}\n".encode()}, before=lambda folder: (folder / "python3").chmod(0o755),
          environment={"PATH": f".:{os.environ['PATH']}"}) for script in OTHERS
      for more, status, said, printed in WITHOUT_PYTHON),
    Row("a name that isn't ASCII", ["tools/from_gas", CYRILLIC], 2, said=rf"\Afrom_gas: {CYRILLIC}: No such file", environment=PLAIN),
]
CHECKS = [each_tool_starts, each_test_loads, minimal_tells_its_package, unreadable_modules_are_told]
