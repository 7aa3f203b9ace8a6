"""What ./hunt prints, asked of what it asks itself: the program, and with --json the tool that makes a part. Its own start takes ten times as long as a short hunt."""
import subprocess
from typing import Sequence, Tuple

from celltools.common.repository import ROOT, built
from lib import forking

HUNT = built("hunt")
SECONDS, MEGABYTES = 120, 4096


def tool(words: Sequence[str], given: bytes) -> forking.Answer:
    """What a tool prints and says, with its status."""
    found = forking.ended(words, ROOT, SECONDS, MEGABYTES, given)
    if found is None:
        raise subprocess.TimeoutExpired(words, SECONDS)
    return found


def hunted(machine: str, *words: str) -> Tuple[int, bytes]:
    """The status of a hunt, and what it prints; for a part that can't be made, what the tool says."""
    found = subprocess.run([HUNT, machine, *words], cwd=ROOT, stdin=subprocess.DEVNULL, capture_output=True, timeout=SECONDS)
    if "--json" not in words:
        return found.returncode, found.stdout
    status, printed, said = tool(["tools/site_lines", "--json", machine], found.stdout)
    return found.returncode, printed if status == 0 else said
