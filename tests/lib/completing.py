"""The words that zsh offers for a line, which only a terminal of its own can ask for."""
import os
import pathlib
import pty
import select
import time
from typing import List

from celltools.common.repository import ROOT
from celltools.usage.made import COMPLETIONS

PATIENCE = 20.0  # seconds
# Prints between marks what zsh adds to its list.
SETUP = r"""
PROMPT=READY
fpath=(%s $fpath)
autoload -U compinit; compinit -D -u
begun() { print -n '<<' }
ended() { print -n '>>' }
compprefuncs=(begun); comppostfuncs=(ended)
bindkey '^I' complete-word
compadd() {
    if [[ ${@[1,(i)(-|--)]} == *-(O|A|D)\ * ]]; then builtin compadd "$@"; return $?; fi
    local -a hits
    builtin compadd -A hits "$@"
    print -rn -- "${(pj:|:)hits}|"
    builtin compadd "$@"
}
"""


def read_until(terminal: int, mark: bytes) -> bytes:
    """What a program prints on its terminal until the mark comes."""
    data, last = b"", time.monotonic() + PATIENCE
    while mark not in data and time.monotonic() < last:
        if select.select([terminal], [], [], 0.1)[0]:
            try:
                data += os.read(terminal, 4096)
            except OSError:
                break
    return data


def zsh_offers(folder: pathlib.Path, words: List[str]) -> List[str]:
    setup = folder.parent / "setup.zsh"
    setup.write_text(SETUP % (ROOT / COMPLETIONS))
    child, terminal = pty.fork()
    if child == 0:
        os.chdir(folder)
        os.execvp("zsh", ["zsh", "-f", "-i"])
    try:
        os.write(terminal, f". {setup}\n".encode())
        read_until(terminal, b"READY")
        os.write(terminal, " ".join(words).encode() + b"\t")
        printed = read_until(terminal, b">>").decode(errors="replace")
    finally:
        os.close(terminal)
        os.waitpid(child, 0)
    return [word.replace("\\", "") for word in printed.partition("<<")[2].partition(">>")[0].split("|") if word]
