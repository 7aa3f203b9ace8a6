"""What the words of a local store are, as `cell debug` disassembles them."""
import pathlib
import subprocess
import tempfile
from typing import Dict, Iterable, Mapping, Tuple

from celltools.run.runs import Refused, command_of

MOST_WORDS = 256  # that a line of a script may ask for


def instructions(words: Mapping[int, bytes]) -> Dict[int, str]:
    """The instruction at each address of some words of four bytes; ValueError with the program's words where it refuses."""
    if not words:
        return {}
    with tempfile.TemporaryDirectory(prefix="cell-words-") as room:
        machine, script = pathlib.Path(room) / "m", pathlib.Path(room) / "script"
        placed = (f"bytes {at} {word.hex()}\n" for at, word in words.items())
        machine.write_text("cell-machine 1\nlines 1\nbudget 1\nspe\n" + "".join(placed))
        first, end = min(words), max(words) + 4
        script.write_text("".join(f"dis 0 {at} {min(MOST_WORDS, (end - at) // 4)}\n" for at in range(first, end, 4 * MOST_WORDS)))
        run = subprocess.run([*command_of("cell_cli"), "debug", machine, script], capture_output=True, text=True)
    if run.returncode:
        raise ValueError(run.stderr.strip())
    lines = (line.split(" ", 2) for line in run.stdout.splitlines())
    return {int(at, 16): text for at, _, text in lines if int(at, 16) in words}


class Disassembler:
    """The texts of the words that were asked for, each with its address."""

    def __init__(self) -> None:
        self.known: Dict[Tuple[int, int], str] = {}

    def learn(self, places: Iterable[Tuple[int, int]]) -> None:
        """Asks for all words at once that aren't known; an address stands for one word at a time."""
        new = {at: word for at, word in places if (at, word) not in self.known}
        try:
            texts = instructions({at: word.to_bytes(4, "big") for at, word in new.items()})
        except ValueError as why:
            raise Refused(str(why)) from None
        self.known.update({(at, word): texts[at] for at, word in new.items()})

    def text(self, at: int, word: int) -> str:
        """The text of a word that stands at an address."""
        self.learn([(at, word)])
        return self.known[at, word]
