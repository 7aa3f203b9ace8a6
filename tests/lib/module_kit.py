"""A kit of scripts in the place of the real one: tools/dev/wasm runs whole with it, in a second, and what it builds is a few bytes."""
import os
import pathlib
import shutil
import stat
import subprocess
import sys
from typing import Dict

from celltools.common.repository import ROOT

SECONDS = 120
EMPTY_MODULE = "\\0asm\\001\\0\\0\\0"  # as printf writes it
SCRIPTS = {
    "bin/rt": 'cat "$0.version"',
    # rattle: writes the archive, and calls clang with the LLVM module
    "bin/rattle": """
while [ $# -gt 0 ]; do
    case $1 in
    --toolchain) toolchain=$2 ;;
    -o) cat "$0.archive" >"$2" ;;
    esac
    shift
done
: >module.bc
"$toolchain/bin/clang" module.bc
rm module.bc""",
    "toolchain/bin/clang": """
while [ $# -gt 0 ]; do
    [ "$1" = -o ] && printf 'target datalayout = "e"\\ntarget triple = "x"\\nattributes #0 = { "target-cpu"="x" }\\n' >"$2"
    shift
done""",
    "toolchain/bin/ld.lld": f"""
while [ $# -gt 0 ]; do
    [ "$1" = -o ] && printf '{EMPTY_MODULE}' >"$2"
    shift
done""",
}


def put_kit(kit: pathlib.Path, version: str, archive: str) -> None:
    """A kit in a folder: the version that it names, and the archive that it builds."""
    for name, script in SCRIPTS.items():
        path = kit / name
        path.parent.mkdir(parents=True, exist_ok=True)
        path.write_text(f"#!/bin/sh\n{script.strip()}\n")
        path.chmod(path.stat().st_mode | stat.S_IXUSR)
    (kit / "toolchain" / "lib").mkdir(exist_ok=True)
    (kit / "bin" / "rt.version").write_text(f"{version}\n")
    (kit / "bin" / "rattle.archive").write_text(archive)


def put_copy(root: pathlib.Path) -> None:
    """A copy of all that tools/dev/wasm reads and writes, in which each crate has a library."""
    root.mkdir()
    shutil.copy(ROOT / "crates.txt", root)
    for name in ("tools", "page", "c"):
        shutil.copytree(ROOT / name, root / name, ignore=shutil.ignore_patterns("__pycache__"))
    for crate in (ROOT / "crates").iterdir():
        copy = root / "crates" / crate.name
        (copy / "out" / "rlib" / f"{crate.name}.rlib").mkdir(parents=True)
        for part in ("src", "specs", "proofs"):
            if (crate / part).is_dir():
                shutil.copytree(crate / part, copy / part)


def wasm(root: pathlib.Path, kit: bool, *words: str) -> "subprocess.CompletedProcess[str]":
    """tools/dev/wasm in the copy, with the kit beside it or with none; nothing is remembered from one call to the next."""
    programs = root.parent / "programs"
    if not programs.exists():
        programs.mkdir()
        os.symlink(sys.executable, programs / "python3")
    shutil.rmtree(root.parent / ".cache", ignore_errors=True)
    path = f"{programs}:{root.parent / 'kit' / 'bin'}:/usr/bin:/bin" if kit else str(programs)
    environment: Dict[str, str] = {"PATH": path, "HOME": str(root.parent)}
    return subprocess.run([root / "tools" / "dev" / "wasm", *words], env=environment, capture_output=True, text=True, timeout=SECONDS)


def failure(what: str, done: "subprocess.CompletedProcess[str]", status: int, said: str) -> str:
    """What is wrong with an answer of tools/dev/wasm; empty if it has this status and text."""
    is_right = done.returncode == status and said in done.stderr and "Traceback" not in done.stderr
    return "" if is_right else f"{what}: status {done.returncode}, wanted {status} and '{said}': {done.stderr.strip()}"

