"""Where the kit is, and its commands."""
import pathlib
import shutil
import subprocess
from typing import Optional, Sequence

from engine.faults import Failed


class Kit:
    """The kit, in the folder in which `rt` lies."""

    def __init__(self, folder: pathlib.Path) -> None:
        self.folder = folder
        self.rattle = folder / "bin" / "rattle"
        self.toolchain = folder / "toolchain"
        self.clang = self.toolchain / "bin" / "clang"
        self.linker = self.toolchain / "bin" / "ld.lld"

    @property
    def version(self) -> str:
        return run([self.folder / "bin" / "rt", "version"]).strip()


def kit_here() -> Optional[Kit]:
    """The kit of this machine, None where there is none."""
    found = shutil.which("rt")
    kit = Kit(pathlib.Path(found).resolve().parents[1]) if found else None
    return kit if kit and kit.clang.exists() else None


def run(words: Sequence[object], folder: Optional[pathlib.Path] = None) -> str:
    """What a command prints. Failed where it fails, with the last lines of what it said."""
    done = subprocess.run([str(word) for word in words], cwd=folder, stdin=subprocess.DEVNULL, capture_output=True, text=True, errors="replace")
    if done.returncode:
        said = (done.stderr + done.stdout).strip().splitlines()[-8:]
        raise Failed("\n    ".join([f"{pathlib.Path(str(words[0])).name} ended with status {done.returncode}", *said]))
    return done.stdout
