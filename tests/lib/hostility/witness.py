"""Calls of tools/witness: what it writes and what it never writes over, and records that have no race, or of which an order is refused."""
import os
import pathlib
from typing import Any, Callable, Optional

from celltools.common.repository import ROOT
from lib.hostility.rows import Row

RACES = ROOT / "examples" / "races"
SOURCE, RECORD = ((RACES / name).read_bytes() for name in ("reuse_race.s", "reuse_race.out"))
MACHINE = b"cell-machine 1\nlines 1\nbudget 1000\nspe\nsource s.s\nshow mem 0 32\n"
FILES = {"m.cell": MACHINE, "s.s": SOURCE, "m.out": RECORD}
MINE = b"a page of my own\n"
# A GET brings a `stop` over a `rdch` of the empty mailbox, to which the program goes: without the GET it waits there.
BROUGHT = {
    "m.cell": b"cell-machine 1\nlines 1\nbudget 1000\nspe\nsource s.s\nmem 0 00000002\n",
    "s.s": b"_start:\tila $2,patch\n\twrch $ch16,$2\n\til $3,16\n\twrch $ch19,$3\n\til $4,0x40\n\twrch $ch21,$4\n\tbr patch\n"
           b"\t.org 0x80\npatch:\trdch $5,$ch29\n",
    "m.out": b"cell-record 2\nx 0 7\np 0 0 0 0\nx 0 1\nsteps 9\n",
}
# A tag status is asked for at once, after the GET is done, which orders nothing: asked for before, it shows no tag, and the program polls once more.
POLLED = {
    "m.cell": b"cell-machine 1\nlines 1\nbudget 1000\nspe\nsource s.s\nmem 0 01020304\n",
    "s.s": b"_start:\til $3,16\n\twrch $ch19,$3\n\til $4,0x40\n\tila $5,buffer\n\twrch $ch16,$5\n\twrch $ch21,$4\n\til $6,1\n\twrch $ch22,$6\n\til $8,0\n"
           b"poll:\twrch $ch23,$8\n\trdch $9,$ch24\n\tbrz $9,poll\n\til $10,0x20\n\twrch $ch21,$10\n\tstqa $9,buffer\n\tstop 1\n"
           b"\t.org 0x100\nbuffer:\t.space 16\n",
    "m.out": b"cell-record 2\nx 0 9\np 0 0 0 0\nx 0 6\np 0 1 0 0\nx 0 1\nsteps 18\n",
}
# Two PUTs of the same bytes.
ALIKE = {
    "m.cell": b"cell-machine 1\nlines 1\nbudget 1000\nspe\nsource s.s\n",
    "s.s": b"_start:\til $3,16\n\twrch $ch19,$3\n\til $4,0x20\n\twrch $ch21,$4\n\twrch $ch21,$4\n\tstop 1\n",
    "m.out": b"cell-record 2\nx 0 5\np 0 0 0 0\np 0 1 0 0\nx 0 1\nsteps 8\n",
}
WAITS = r"(?s)the second order is not a run \([^()]*\): its step 7, `x 0` \(step 8 of the record\), is not possible there\n.*\n    waits on channel 29"
OF_DEVICES = [f"/dev/{name}.{order}" for name in ("full", "new", "linked", "stdin-0") for order in ("first", "second")]
BOTH, USAGE, TAKEN = "both runs end AllStopped", "Usage: tools/witness", ": the file exists, so nothing is written"


def has_only(*names: str) -> Callable[[pathlib.Path], Optional[str]]:
    """What is wrong in a folder that has other files than those of FILES and these."""
    def wrong(folder: pathlib.Path) -> Optional[str]:
        found = {path.name for path in folder.iterdir()}
        changed = [name for name, data in FILES.items() if (folder / name).read_bytes() != data]
        return f"there are {sorted(found)}, and changed are {changed}" if found != {*FILES, *names} or changed else None
    return wrong


def leaves_devices(folder: pathlib.Path) -> Optional[str]:
    """What these rows left among the devices."""
    found = [name for name in OF_DEVICES if os.path.exists(name)]
    return f"{found} are there" if found else None


def make_pipe(folder: pathlib.Path) -> None:
    os.mkfifo(folder / "pipe")


def link_to_null(folder: pathlib.Path) -> None:
    (folder / "x.second").symlink_to("/dev/null")


def link_among_devices(folder: pathlib.Path) -> None:
    (folder / "x.first").symlink_to("/dev/linked.first")


def keeps_mine(folder: pathlib.Path) -> Optional[str]:
    return None if (folder / "m.out.second").read_bytes() == MINE else "m.out.second was written over"


def are_records(folder: pathlib.Path) -> Optional[str]:
    """What is wrong with two records that take the place of what was there."""
    wrong = [name for name in ("m.out.first", "m.out.second") if not (folder / name).read_bytes().startswith(b"cell-record 2\n")]
    return f"{wrong} aren't records" if wrong else None


def witness(name: str, *words: str, status: int = 0, said: str = "", printed: Optional[str] = None, **how: Any) -> Row:  # `how`: all else that a Row has
    how.setdefault("files", FILES)
    return Row(name, ("tools/witness", *words), status, said, printed, **how)


def has_first_alone(folder: pathlib.Path) -> Optional[str]:
    return None if (folder / "m.out.first").exists() and not (folder / "m.out.second").exists() else "m.out.first alone is wanted"


ROWS = [
    witness("both orders beside the record", "m.cell", "m.out", printed=BOTH, after=has_only("m.out.first", "m.out.second")),
    witness("both orders by a name", "-o", "x", "m.cell", "m.out", printed=BOTH, after=has_only("x.first", "x.second")),
    witness("a run of a hunt", "--run", "0", "m.cell", printed="^m-0.first, the order of the record:", after=has_only("m-0.first", "m-0.second")),
    witness("no words", status=2, said=USAGE),
    witness("a seed without a run", "--seed", "1", "m.cell", "m.out", status=2, said=USAGE),
    witness("a run and a record", "--run", "1", "m.cell", "m.out", status=2, said=USAGE),
    witness("a run of no number", "--run", "-1", "m.cell", status=2, said=USAGE),
    witness("options behind the names", "m.cell", "m.out", "-o", "x", printed=BOTH, after=has_only("x.first", "x.second")),
    witness("an option without its value", "m.cell", "m.out", "-o", status=2, said=USAGE),
    witness("an empty name", "-o", "", "m.cell", "m.out", status=2, said=USAGE),
    witness("a name in a folder that isn't there", "-o", "none/x", "m.cell", "m.out", status=2, said="none/x.first: No such file", after=has_only()),
    witness("a file that is there", "m.cell", "m.out", status=2, said=TAKEN, files={**FILES, "m.out.second": MINE}, after=keeps_mine),
    witness("a file that is there, by force", "--force", "m.cell", "m.out", printed=BOTH, files={**FILES, "m.out.second": MINE}, after=are_records),
    witness("the record's own name, by force", "--force", "-o", "m", "m.cell", "m.first", status=2, said="m.first: this is an input file",
            files={**FILES, "m.first": RECORD}),
    witness("a record that is no plain file", "m.cell", "/dev/null", status=2,
            said="^witness: /dev/null: this is a device, .*: give the output another name with `-o NAME`$"),
    witness("a record on standard input", "-o", "x", "m.cell", "/dev/stdin", printed=BOTH, standard_input=RECORD, after=has_only("x.first", "x.second")),
    witness("a record that isn't there", "m.cell", "none", status=2, said="cannot read record file", after=has_only()),
    witness("a device", "-o", "/dev/full", "m.cell", "m.out", status=2, said="^witness: -o /dev/full: this is a device, ", after=leaves_devices),
    witness("a device, by force", "--force", "-o", "/dev/full", "m.cell", "m.out", status=2, said="^witness: -o /dev/full: this is a device, ",
            after=leaves_devices),
    witness("a new name among devices", "-o", "/dev/new", "m.cell", "m.out", status=2, said="^witness: /dev/new.first: /dev cannot hold regular files",
            after=leaves_devices),
    witness("a name in /proc", "-o", "/proc/self/x", "m.cell", "m.out", status=2, said="^witness: /proc/self/x.first: /proc/.* cannot hold regular files"),
    witness("a folder", "-o", ".", "m.cell", "m.out", status=2, said="^witness: -o .: this is a folder, ", after=has_only()),
    witness("a pipe", "-o", "pipe", "m.cell", "m.out", status=2, said="^witness: -o pipe: this is a pipe, ", before=make_pipe, after=has_only("pipe")),
    witness("a link to a device", "--force", "-o", "x", "m.cell", "m.out", status=2, said="^witness: x.second: this is a device, ", before=link_to_null,
            after=has_only("x.second")),
    witness("a link into a folder of devices", "--force", "-o", "x", "m.cell", "m.out", status=2, said="^witness: x.first: /dev cannot hold",
            before=link_among_devices, after=leaves_devices),
    witness("a run of a hunt of a machine among devices", "--run", "0", "/dev/stdin", status=2, standard_input=MACHINE, after=leaves_devices,
            said="^witness: /dev/stdin-0.first: /dev cannot hold"),
    witness("no race", "first.cell", "first.out", status=2, said="no race: `check` says accepted 3", examples=("first.cell", "first.out")),
    witness("an instruction that the other step brings", "m.cell", "m.out", status=1, printed=WAITS, files=BROUGHT, after=has_first_alone),
    witness("a status that nothing orders", "m.cell", "m.out", files=POLLED,
            printed=r"(?s)is not a run \([^()]*\): its step 16, `p 0 1 0 0` .*has not been issued\n.*both orders are runs \([^()]*in the order of the record\)\n"),
    witness("nothing differs", "m.cell", "m.out", printed="the race is benign in this run", files=ALIKE),
]
