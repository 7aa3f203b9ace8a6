"""Sessions of tools/debug, and the tools that read records, with odd files and words: names, lines, numbers and bytes that no file of ours has."""
import os
import pathlib
import stat
import sys
import tempfile
import threading
from typing import Any, Iterator, List, Mapping, Optional, Sequence

from celltools.common.repository import ROOT
from celltools.common.texts import lines_in, number_of, shown
from lib.hostility.rows import Row, ended
from lib.hostility.sources import part_of


RACES = ROOT / "examples" / "races"
SOURCE, RECORD = ((RACES / name).read_bytes() for name in ("reuse_race.s", "reuse_race.out"))
MACHINE = b"cell-machine 1\nlines 1\nbudget 1000\nspe\nsource s.s\nshow mem 0 32\n"
FILES = {"m.cell": MACHINE, "s.s": SOURCE, "m.out": RECORD}
STORE = b"\tstqd\t$4,0($3)\n"  # the two stores of the source, in lines 7 and 19; the second one is in its race
LONG = "9" * 5000
NOT_UTF8 = os.fsdecode(b"m\xff.cell")
# Blanks and ends of lines that are Python's alone: each would begin a line that is another processor.
ODD_COMMENT = "# \r spe \x0b spe \x0c spe \x1c spe \u0085 spe \u2028 spe\n".encode()
SCRIPT = b"cell-machine 1\n" + ODD_COMMENT + b"lines 1\nbudget 9\nspe\ncode 0 00000000 " + ODD_COMMENT + b"host send 0 7\nhost send 0 8\n"
# What a terminal obeys: as the name of a file from which a line comes, so that it is told with the line.
HIDING = "# \x1b]0;name\x07\x1b[2J\u202efake.c:1 \u009b31m \r here"
HIDDEN_NAME = r"\\x1b\]0;name\\x07\\x1b\[2J\\u202efake\.c:1"
NO_ESCAPE = r"(?s)\A(?!.*[\x1b\x07\r])"  # what a terminal would obey is nowhere
EMPTY, FIRST = b"cell-record 2\nsteps 0\n", b"cell-record 2\nx 0 1\nsteps 1\n"
PAGE = b"<!doctype html>\n<p>a page of my own\n"


def with_comments(*comments: str) -> bytes:
    """The source with a comment behind each of its two stores."""
    first, *rest = SOURCE.split(STORE)
    return first + b"".join(STORE.rstrip(b"\n") + b"\t" + comment.encode() + b"\n" + part for comment, part in zip(comments, rest))


ODD_FILES = {**FILES, "m.cell": ODD_COMMENT + MACHINE, "s.s": with_comments("# въход, Ångström", HIDING)}


def session(name: str, commands: Sequence[str], printed: str, status: int = 0, words: Sequence[str] = ("m.cell",), **how: Any) -> Row:
    """A whole session of tools/debug; `how` is all else that a Row has."""
    how.setdefault("files", FILES)
    given = "".join(f"{command}\n" for command in commands).encode("utf-8", "surrogateescape")
    return Row(name, ("tools/debug", *words), status, printed=printed, standard_input=given, **how)


# ---- what is written, and what stays as it is

def make_names(folder: pathlib.Path) -> None:
    """Records under several names, one that is read-only, and a pipe that nobody reads."""
    for name in ("old.out", "alone.out", "fixed.out"):
        (folder / name).write_bytes(EMPTY)
        (folder / name).chmod(0o440 if name == "fixed.out" else 0o640)
    os.link(folder / "old.out", folder / "hard.out")
    os.symlink("alone.out", folder / "soft.out")
    os.mkfifo(folder / "pipe")


def wrong_names(folder: pathlib.Path) -> Optional[str]:
    """What is wrong with these files, when all but the one that is read-only were written over."""
    names = ("old.out", "hard.out", "alone.out", "soft.out")
    changed = [name for name in names if (folder / name).read_bytes() != FIRST or stat.S_IMODE((folder / name).stat().st_mode) != 0o640]
    if changed or not (folder / "soft.out").is_symlink() or not (folder / "old.out").samefile(folder / "hard.out"):
        return f"not kept as they were: {changed or 'the links'}"
    others = {path.name for path in folder.iterdir()} - {*FILES, *names, "fixed.out", "pipe"}
    return f"left behind: {others}" if others else None if (folder / "fixed.out").read_bytes() == EMPTY else "fixed.out was changed"


def link_record(folder: pathlib.Path) -> None:
    """Gives the record more names."""
    os.link(folder / "m.out", folder / "hard.out")
    os.symlink("m.out", folder / "soft.out")


def wrong_files(folder: pathlib.Path) -> Optional[str]:
    """Which of the files isn't as it was."""
    changed = [name for name, data in {**FILES, "mine.html": PAGE}.items() if (folder / name).read_bytes() != data]
    return f"changed: {changed}" if changed else None


WRITING = [
    session("a file is written over only where one says so", ["step", "record old.out", "record hard.out over", "record soft.out over", "record fixed.out over",
                                                             "record pipe", "record /dev/null", "record /dev/full", "record .", "record no/where", "where"],
            r"(?s)old\.out: the file exists, so nothing is written: type `record old\.out over`.* written to hard\.out.* written to soft\.out"
            r".*fixed\.out: (it is read-only|Permission denied).*pipe: nobody reads it: use another.* written to /dev/null.*/dev/full: No space left on device"
            r".*\.: Is a directory.*no/where: No such file or directory.*after 1 step; ", 1, before=make_names, after=wrong_names),
    session("the record that a session is from stays, and what holds something else", [
        "record m.out", "record m.out over", "record hard.out over", "record soft.out over", "picture m.out over", "picture mine.html",
        "picture mine.html over", "record m.cell over", "record s.s over", "picture page.html", "picture page.html", "picture page.html over", "where"],
            r"(?s)(m\.out: this is the record of the session.*){2}hard\.out: this is the record.*soft\.out: this is the record.*m\.out: this is the record"
            r".*(mine\.html: the file exists and is not a page.*){2}m\.cell: the file exists and is not a record.*s\.s: the file exists and is not a record"
            r".*picture of 10 steps written.*`picture page\.html over`.*picture of 10 steps written.*after 10 steps; ", 1,
            ("m.cell", "m.out", "10"), files={**FILES, "mine.html": PAGE}, before=link_record, after=wrong_files),
]

# ---- words of commands

PLACES = [f"break buffer{end}" for end in ("+08", f"+{LONG}", "+0x", f"-{LONG}", "+-1", "+0x123456789", "+\u0661")] + [
    "x buffer+09", f"x buffer+{LONG}", "x buffer-0x1000", f"x {LONG}", f"x 0 {LONG}", f"x mem {LONG} 16", "x x00 0", f"x ls {LONG} 0", f"break s.s:{LONG}",
    "break s.s:08", "break s.s:", f"break $ch{LONG}", f"break x{LONG} 0", f"list s.s:{LONG}", f"dis 0 {LONG}", "print buffer+08", f"print ${LONG}",
    f"watch buffer+{LONG} 4", "watch buffer 08", f"spe {LONG}", "queue 00", f"tags {LONG}", "signals 0x", "x\u0661"]
COUNTS = [f"{command} {number}" for command in ("step", "back to", "other", "delete", "step x0") for number in (LONG, "08", "-1", "0x")] + [
    "step p 0 08 0 0", f"step p {LONG} 0 0 0", "step \u0661", "step x", "\x1b[2J", "break \x00", "record \x00", "picture \x00", "help \udcff"]
THINGS = [f"{command} {thing}" for command in ("last", "watch") for thing in (
    "", "if", "if if", "$128", f"${LONG}", "$3.4", "$3.", "x0", "x1 lost", "mem", "mem $3", "ls", "ls 0", "lost lost", f"stall {LONG}", "stall 32", "event",
    "event x", "event 0x", f"signal {LONG}", "mailbox \udcff", f"reservation {LONG}", "nowhere", "buffer 0", "\u0661",
    "tag 32", f"tag {LONG}", "tag x", f"atomic {LONG}", "atomic x", "halt halt", "x9 halt", "fault 1")]
ACTORS = [f"{command} {words}" for command in ("hold", "release", "run") for words in (
    f"x{LONG}", "x9", "m9 until", "until", "until until", "x0 until until", f"x0 until {LONG}", "x0 until if", "h h h h x0 until \udcff",
    "\udcff until 0x0", "x\u0661", "host x", "all all", "x0 if", "m0 x0 until buffer if $3")]
CONDITIONS = [f"break 0x0 if {condition}" for condition in (
    "", "and", "$3", "$3 ==", "== $3", "$3 == $4 == $5", "$3 = 1", "$3 == 08", f"$3 < {LONG}", "$3 < -", "$3 < --1", "$3 == -0x", "1 == 1 and", "if",
    "mem == 1", "mem 0 3 > 1", "mem 128 == 1", "x1 $3 == 1", "buffer+08 == 1", "$3.9 == 1", "\udcff == \x00", "pc ! 1", "$3 == \u0661")]
VALUES = [f"{command} {value}" for command in ("print", "display", "x") for value in (
    "as", "$3 as", "$3 as words words", "$3.0 as quadwords", "as bytes", "$3 4", "mem", "mem 0 as doublewords", "ls 0 0 16 16", "x0", "x0 x0 $3", "pc pc pc",
    "-1", "as as", f"mem 0 {LONG}", "$3.4", "nowhere as bytes")]
WORDS = [
    session("odd things, conditions and values", ["step", *THINGS, *CONDITIONS, *VALUES, "undisplay all", "undisplay", "finish", "finish 1", "reverse",
                                                  "tbreak if", "tbreak", "delete all", "back to 1", "where"],
            NO_ESCAPE + r"(?!.*internal error).*> where\nafter 1 step; \d+ recorded steps? ahead\n", 1),
    session("odd actors", ["step", *ACTORS, "release all", "where"], NO_ESCAPE + r"(?!.*internal error).*1> where\nafter 1 step; 0 recorded steps ahead\n", 1),
    session("odd numbers and names", ["step", *PLACES, *COUNTS, "where"], NO_ESCAPE + r"(?!.*internal error).*1> where\nafter 1 step; 0 recorded steps ahead\n", 1),
    session("a line without end", ["where", "x" * 200_000], r"(?s)0> where\nafter 0 steps", 2, said=r"standard input has a line of more than 100000 bytes"),
    session("odd lines of a script", ["step\r", "# \x85\r step", "\x0cwhere"], r"(?s)1> # \\x85\\x0d step\n1> \\x0cwhere\nafter 1 step; "),
]

# ---- lines and bytes of texts

TEXTS = [
    session("odd lines and bytes", ["list s.s:7", "list s.s:19", "run s.s:19", "where"],
            NO_ESCAPE + r".* 7 0x00008 +stqd +\$4,0\(\$3\) +# въход, Ångström\n.* 19 0x00034 +stqd +\$4,0\(\$3\) +# " + HIDDEN_NAME
            + r" \\x9b31m \\x0d here\n +20 .*running at 0x00034, " + HIDDEN_NAME + r" \(s\.s:19\): stqd", files=ODD_FILES),
    session("odd lines of a machine file, whose name is no UTF-8", ["actors", "step x0", "where", "record \udcff"],
            r"(?s)x0 .*m\\xff\.cell:6: stop 0.*next: m\\xff\.cell:7: host send 0 7.*written to \\xff", words=(NOT_UTF8,), files={NOT_UTF8: SCRIPT},
            after=lambda folder: None if (folder / os.fsdecode(b"\xff")).exists() else "no record"),
    Row("race: a name with a blank", ("tools/race", "m m.cell", "m.out"), 1, printed=r"tools/witness 'm m\.cell' m\.out$",
        files={**FILES, "m m.cell": MACHINE}),
    Row("hunt: a name with a blank and a quotation mark", ("hunt", "m 'm.cell", "4"), 1, printed=r"\Am 'm\.cell: 4 runs, (?s:.*)/tools/race --run 0 'm '\"'\"'m\.cell'$",
        files={**FILES, "m 'm.cell": MACHINE}),
    Row("race: odd lines and bytes", ("tools/race", "m.cell", "m.out"), 1, files=ODD_FILES,
        printed=NO_ESCAPE + r".*second, step 14:.*at " + HIDDEN_NAME + r" \(s\.s:19\): stqd"),
    Row("picture: odd lines and bytes, of a name that is no UTF-8", ("tools/picture", NOT_UTF8, "m.out"), 0,
        printed=r"(?s)\A(?!.*[\x1b\x07]).*<title>m\\xff\.cell: race 10 14.*fake\.c:1 \(s\.s:19\): stqd", files={**ODD_FILES, NOT_UTF8: ODD_FILES["m.cell"]}),
    Row("places of a part: odd lines", ("tools/site_lines", "--json", NOT_UTF8), 0, printed=r'"places":\["m\\udcff\.cell:6","m\\udcff\.cell:8"\]',
        files={NOT_UTF8: SCRIPT}, standard_input=part_of("x 0 at 0x00000 | h 1")),
    Row("places of a part: odd bytes", ("tools/site_lines", "--json", "m.cell"), 0, files=ODD_FILES, standard_input=part_of("x 0 at 0x00034"),
        printed=NO_ESCAPE + r'.*"places":\["\\u001b\]0;name\\u0007\\u001b\[2J\\u202efake\.c:1"\]'),
    Row("states: a file of an odd name", ("tools/states", "m.cell", NOT_UTF8), 2, r"^states: m\\xff\.cell: it has no line `steps N`",
        files={**FILES, NOT_UTF8: MACHINE}),
    Row("states: a missing file of an odd name", ("tools/states", "m.cell", "\x1b[2J.out"), 2, r"^states: \\x1b\[2J\.out: No such file", files=FILES),
]

# ---- runs of hunts in the place of records

RUNS = [Row(f"{tool}: {what}", (f"tools/{tool}", *words), 2, said, files=FILES) for tool in ("debug", "picture", "race", "states") for what, words, said in (
    ("a run beyond the last", ("--run", "4294967296", "m.cell"), rf"(?m)^Usage: tools/{tool} "),
    ("a run and a record", ("m.cell", "m.out", "--run", "0", "1", "2"), rf"(?m)^Usage: tools/{tool} "),
    ("a seed without a run", ("m.cell", "m.out", "--seed", "2"), rf"(?m)^Usage: tools/{tool} "),
    ("a run of what is no machine file", ("--run", "0", "s.s"), rf"(?m)^{tool}: hunt: machine file, line \d+\n +s\.s is a source: name a machine file"),
)]

# ---- files that are none, have no end, or change

def refused(tools: str, what: str, said: str, machine: str = "m.cell", record: str = "m.out", files: Mapping[str, bytes] = FILES) -> List[Row]:
    """Rows of tools that refuse a machine file or a record."""
    more = {"debug": ("1",)}
    return [Row(f"{tool}: {what}", (f"tools/{tool}", machine, record, *more.get(tool, ())), 2, said, files=files, megabytes=1024) for tool in tools.split()]


REFUSED = [
    *refused("race debug", "a machine file without end", r"machine file is too long", machine="/dev/zero"),
    *refused("race picture", "a record without end", r"record file (is too long|, line 1)", record="/dev/zero"),
    *refused("states", "a record without end", r"/dev/zero: it has no line `steps N`", record="/dev/zero"),
    *refused("picture", "a folder as a machine file", r"^picture: \.: it is a folder: name a machine file$", machine="."),
    *refused("debug", "a folder as a record", r"^debug: \.: it is a folder: name a record$", record="."),
    *refused("states", "a machine file that can't be read", r"^states: /proc/self/mem: Input/output error: name a machine file that can be read$",
             machine="/proc/self/mem"),
    *refused("race", "a record that can't be read", r"^race: /proc/self/mem: Input/output error: name a record that can be read$",
             record="/proc/self/mem"),
    *refused("debug", "a number without end in the machine file", r"machine file, line 6\n +m\.cell:6: entry 9{40,200}\n +tools/explain m\.cell explains it",
             files={**FILES, "m.cell": MACHINE.replace(b"show mem 0 32", b"entry " + LONG.encode())}),
    *refused("race states", "a number without end in the record", r"record file, line 7|m\.out: it has no line `steps N`",
             files={**FILES, "m.out": RECORD.replace(b"steps 21", b"steps " + LONG.encode())}),
    *refused("picture", "a record of bytes", r"record file, line 1\n +m\.out:1: \\x00\\x01\S*\n +tools/explain m\.out explains it", files={**FILES, "m.out": bytes(range(256)) * 99}),
    Row("states: a number without end", ("tools/states", "m.cell", "m.out", LONG), 2, r"^states: `9+` is not a number of steps of this record: give 0 to 21$",
        files=FILES),
    Row("states: a number with a sign", ("tools/states", "m.cell", "m.out", "+1"), 2, r"^states: `\+1` is not a number of steps", files=FILES),
    Row("debug: a number without end", ("tools/debug", "m.cell", "m.out", LONG), 2, r"^debug: `9+` is not a number of steps of this record: give 0 to 21$",
        files=FILES),
    Row("picture: steps without end", ("tools/picture", "--race", LONG, "1", "m.cell", "m.out"), 2, r"^Usage: tools/picture", files=FILES),
    Row("picture: steps of another alphabet", ("tools/picture", "--race", "\u0661", "\u0662", "m.cell", "m.out"), 2, r"^Usage: tools/picture", files=FILES),
    Row("race: a pipe as the machine file", ("tools/race", "/dev/stdin", "m.out"), 1, printed=r"(?s)^race 10 14\n.*at s\.s:19", files=FILES,
        standard_input=MACHINE),
]

ROWS = [*WRITING, *WORDS, *TEXTS, *RUNS, *REFUSED]


# ---- what no row can say

# A debugger that fails at each command, as none should.
FAULTY = """
import sys
sys.dont_write_bytecode = True
from celltools.debugger import talk
class Faulty:
    def obey(self, why):
        raise why
for why in (ValueError("digits"), KeyError(7), RecursionError(), OSError(2, "gone", "name")):
    assert not talk.answered(Faulty(), why)
"""


def a_fault_of_a_command_ends_no_session() -> Iterator[str]:
    """Whatever a command meets, it is told, and counted as wrong."""
    found = ended([sys.executable, "-c", FAULTY], ROOT / "tools", 10, 2048)
    if found is None or found.status or found.output.count(b"\n") != 4:
        yield f"it ends so: {found}"


def texts_are_cut_and_shown() -> Iterator[str]:
    """Lines end at LF alone; numbers are those of machine files."""
    if lines_in(b"a\rb\x0c\xe2\x80\xa8\n\n\xff") != ["a\rb\x0c\u2028", "", "\udcff"] or lines_in(b""):
        yield "lines are cut elsewhere"
    if shown("\t\x1b\udcff\u202e\U000e0001\xe9") != "\t\\x1b\\xff\\u202e\\U000e0001\xe9":
        yield "bytes that a terminal obeys are shown as they are"
    taken = [word for word in ("08", "", "-1", "+1", "1_0", "0x", LONG, "\u0661", "4294967296", "0x123456789") if number_of(word) is not None]
    yield from (f"{word!r} is taken for a number" for word in taken)


def a_record_that_changes_is_read_once() -> Iterator[str]:
    """While a record is cut and made whole again, each answer is one of one text, or a refusal."""
    with tempfile.TemporaryDirectory(prefix="cell-hostile-") as room:
        folder = pathlib.Path(room)
        for name, data in FILES.items():
            (folder / name).write_bytes(data)
        is_over = threading.Event()
        changing = threading.Thread(target=change, args=(folder / "m.out", is_over))
        changing.start()
        try:
            for tool in ("race", "states", "picture", "race"):
                found = ended([str(ROOT / "tools" / tool), "m.cell", "m.out"], folder, 10, 2048)
                if found is None or found.status not in (0, 1, 2) or b"Traceback" in found.error or bool(found.error) != (found.status == 2):
                    yield f"tools/{tool} ends so: {found}"
        finally:
            is_over.set()
            changing.join()


def change(path: pathlib.Path, is_over: threading.Event) -> None:
    """Writes a record short and whole, again and again."""
    while not is_over.wait(0.002):
        path.write_bytes(RECORD[:len(RECORD) // 3])
        path.write_bytes(RECORD)


CHECKS = [a_fault_of_a_command_ends_no_session, texts_are_cut_and_shown, a_record_that_changes_is_read_once]
