"""Proves and builds the static library of a crate, and keeps its archive and the LLVM module that the kit's clang was given.

The kit's own command has no way to ask for that module. So clang stands behind a script, in a folder that else has the kit's own tools. The libraries below the
crate are those that `rt ci` or `rt check` left in out/, which have to be of the sources as they are.
"""
import os
import pathlib
import shutil
from typing import List

from celltools.common.repository import ROOT
from engine.faults import Failed
from engine.kit import Kit, run
from engine.manifest import Crates

MOST_JOBS = 2  # more gain little for so small a crate, and each takes up to 1.5 GB
# Copies the module that clang is called with, and calls clang. `rattle` empties the environment, so that all places are written out.
SCRIPT = """#!/bin/sh
for word in "$@"; do
    case $word in
    *.bc) {copy} "$word" "{module}" ;;
    esac
done
exec "{clang}" "$@"
"""


def put_toolchain(kit: Kit, folder: pathlib.Path, module: pathlib.Path) -> pathlib.Path:
    """Makes the folder of tools in which a script stands for clang."""
    tools = folder / "bin"
    tools.mkdir(parents=True)
    (folder / "lib").symlink_to(kit.toolchain / "lib")
    for tool in (kit.toolchain / "bin").iterdir():
        if tool != kit.clang:
            (tools / tool.name).symlink_to(tool)
    script = tools / kit.clang.name
    script.write_text(SCRIPT.format(copy=shutil.which("cp"), module=module, clang=kit.clang))
    script.chmod(0o755)
    return folder


def library_of(crate: str) -> pathlib.Path:
    return ROOT / "crates" / crate / "out" / "rlib" / f"{crate}.rlib"


def words_of(kit: Kit, crates: Crates, crate: str) -> List[object]:
    """The words of `rattle build` for a crate, as `rt lib` has them."""
    uses, below = crates.uses(crate), crates.below(crate)
    words: List[object] = ["--crate-name", crate, "src/lib.rt"]
    for name in ["core", "std", *(name for name in uses if name not in crates.rows)]:
        words += ["--extern", f"{name}={kit.folder}/rlibs/{name}.rlib"]
    words += ["-L", f"dependency={kit.folder}/rlibs"]
    for name in (name for name in uses if name in crates.rows):
        words += ["--extern", f"{name}={library_of(name)}"]
    for name in below:
        words += ["-L", f"dependency={library_of(name).parent}", "--links", f"{name}="]
    words += ["--links", f"{crate}=", "--antt-project", kit.folder / "rattle" / "logic" / "antt-project.json", "--logic-built", kit.folder / "logic_built"]
    return [*words, "--crate-type", "staticlib", "--incremental", "out/incremental", "--jobs", min(MOST_JOBS, os.cpu_count() or 1)]


def refuse_missing(crates: Crates, crate: str) -> None:
    missing = [name for name in crates.below(crate) if not library_of(name).is_dir()]
    if missing:
        raise Failed(f"there is no library of {', '.join(missing)}: .ci/run makes it, and so does `rt check` in crates/{crate}")


def build(kit: Kit, crate: str, folder: pathlib.Path, archive: pathlib.Path) -> pathlib.Path:
    """Proves and builds a crate into an archive. The LLVM module that clang was given, which lies in a folder."""
    crates, here = Crates(), ROOT / "crates" / crate
    refuse_missing(crates, crate)
    module = folder / "module.bc"
    toolchain = put_toolchain(kit, folder / "toolchain", module)
    (here / "out" / "incremental").mkdir(parents=True, exist_ok=True)
    run([kit.rattle, "build", *words_of(kit, crates, crate), "--toolchain", toolchain, "-o", archive], here)
    if not module.exists():
        raise Failed("the kit's clang was given no module: the kit may be a newer one, which calls it otherwise")
    return module
