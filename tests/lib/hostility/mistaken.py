"""Wrong words of the kind that people type: a misspelt name, files the wrong way round or of another kind, a source that isn't there or is faulty, empty files.
Each tool names the file, with its line where there is one, and says what to do.
"""
import os
import pathlib
import pty
import subprocess
import tempfile
from typing import Iterator, List, Sequence

from celltools.common.repository import ROOT
from lib.hostility.rows import Row

MACHINE = b"cell-machine 1\nlines 1\nbudget 100\nspe\nsource s.s\n"
FILES = {
    "m.cell": MACHINE, "s.s": b"_start:\til $3,1\n\tstop 1\n", "m.out": b"cell-record 2\nx 0 2\nsteps 2\n",
    "other.cell": b"cell-machine 1\nlines 1\nbudget 100\nspe\nsource lost.s\n", "bad.cell": MACHINE.replace(b"s.s", b"bad.s"), "bad.s": b"\n\til $3\n",
    "quoted.cell": MACHINE.replace(b"s.s", b'"s.s"'), "blank.cell": MACHINE.replace(b"s.s", b"my s.s"),
    "states.out": b"cell-record 2\nx 0 2\nsteps 2\nend Stuck\n", "my m.cell": MACHINE, "empty.cell": b"", "empty.out": b"", "empty.s": b"",
}
TOOLS = ("race", "picture", "states", "witness", "debug")  # each takes a machine file and a record


def mistaken(name: str, words: Sequence[str], said: str, status: int = 2) -> Row:
    """A call that is refused, and prints nothing."""
    return Row(f"{words[0]}: {name}", words, status, said, printed="", files=FILES)


def of_both(name: str, machine: str, record: str, said: str) -> List[Row]:
    """The same call of all tools that take a machine file and a record."""
    return [mistaken(name, [f"tools/{tool}", machine, record], f"^{tool}: (.*\n)*.*{said}") for tool in TOOLS]


NO_MACHINE, NO_RECORD = "n.cell: it isn't there, or can't be read: names are relative to the current folder", "n.out"
ROWS = [
    Row("explain: a name in quotes", ["tools/explain", "quoted.cell"], 1, printed="^quoted.cell:5: there is no file `\"s.s\"`: .*, without quotes$", files=FILES),
    Row("explain: a name with a blank", ["tools/explain", "blank.cell"], 1, printed="^blank.cell:5: the form is `source NAME`; a name has no blanks$", files=FILES),
    *of_both("a misspelt machine file", "n.cell", "m.out", NO_MACHINE),
    *of_both("a misspelt record", "m.cell", "n.out", NO_RECORD),
    *of_both("a source that isn't there", "other.cell", "m.out", "other.cell:5: source lost.s\n    lost.s: it isn't there, or can't be read: names are relative"),
    *of_both("a faulty source", "bad.cell", "m.out", r"source 0, line 2: BadOperand\n    bad.s:2: il \$3\n    tools/explain bad.cell explains it"),
    *of_both("an empty machine file", "empty.cell", "m.out", r"machine file, line 1\n    empty.cell:1: \(the end of the file\)\n    tools/explain empty.cell explains it"),
    *of_both("an empty record", "m.cell", "empty.out", r"empty.out:1: \(the end of the file\)\n    tools/explain empty.out explains it|empty.out: it has no line `steps N`.*makes a record"),
    *of_both("a source in the place of a machine file", "s.s", "m.out", "s.s is a source: name a machine file that has the line `source s.s`"),
    *of_both("both the wrong way round", "m.out", "m.cell", "m.out is a record: name its machine file first|m.cell: it has no line `steps N`"),
    *of_both("a machine file in the place of a record", "m.cell", "m.cell", "m.cell is a machine file: name a record|m.cell: it has no line `steps N`"),
    mistaken("a misspelt source", ["tools/listing", "n.s"], "^listing: n.s: No such file.*: names are relative to the current folder"),
    mistaken("a faulty source", ["tools/listing", "bad.s"], r"^listing: bad.s:2: BadOperand: il \$3\n    tools/explain bad.s explains it", 1),
    mistaken("a machine file", ["tools/listing", "m.cell"], "^listing: m.cell is a machine file: name one of its sources", 1),
    mistaken("a misspelt source", ["tools/from_gas", "n.s"], "^from_gas: n.s: No such file"),
    mistaken("a misspelt file", ["tools/explain", "n.cell"], "^explain: n.cell: No such file.*: names are relative to the current folder"),
    mistaken("an empty file", ["tools/hunts", "empty.out"], "^empty.out:1: the file is empty: make the part again"),
    mistaken("a target where nothing can be written", ["tools/from_gas", "-o", "/proc/none/whole.s", "s.s"], "^from_gas: /proc/none/whole.s: No such file"),
    mistaken("a machine file with a blank in its name", ["tools/race", "my m.cell", "n.out"], r"n\.out: it isn't there, .*: \./cell run 'my m\.cell' >FILE makes a record$"),
    mistaken("a run of a faulty machine file", ["tools/race", "--run", "1", "bad.cell"], r"bad.s:2: il \$3\n    tools/explain bad.cell explains it"),
    mistaken("a run of a misspelt machine file", ["tools/race", "--run", "1", "n.cell"], "^race: hunt: cannot read machine file\n    " + NO_MACHINE),
    mistaken("a record with other states", ["tools/race", "m.cell", "states.out"], "states.out:4: end Stuck\n    the record was made"),
]


def a_terminal_gets_no_page() -> Iterator[str]:
    """A page of tools/picture is written to a file, and never to a terminal."""
    with tempfile.TemporaryDirectory(prefix="cell-hostile-") as room:
        for name, data in FILES.items():
            pathlib.Path(room, name).write_bytes(data)
        try:
            ours, theirs = pty.openpty()
        except OSError as why:
            print(f"mistaken: a_terminal_gets_no_page: skipped, since no terminal can be made here: {why}")
            return
        done = subprocess.run([ROOT / "tools" / "picture", "m.cell", "m.out"], cwd=room, stdin=subprocess.DEVNULL, stdout=theirs, stderr=subprocess.PIPE, timeout=60)
        os.close(theirs)
        os.close(ours)
    if done.returncode != 2 or b">page.html" not in done.stderr:
        yield f"status {done.returncode}, and it says {done.stderr!r}"


CHECKS = [a_terminal_gets_no_page]
