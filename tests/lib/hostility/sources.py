"""Hostile sources and machine files: what from_gas, explain, listing and the tools that name lines make of them."""
import os
import pathlib
import stat
import tempfile
from typing import Any, Callable, Dict, Iterator, Optional, Sequence

from celltools.common.repository import ROOT
from celltools.hunt.making import whole
from celltools.hunt.reading import FLAWS
from lib.hostility.rows import Row, ended

UNREADABLE = "/proc/self/mem"  # opens, and has no byte at its beginning that may be read
DIGITS = "9" * 5000
DOUBLED = "".join(f"a{number}=a{number - 1}+a{number - 1}\n" for number in range(30, 0, -1)) + "a0=1\nil $3,a30\n"
PARENTHESES = "il $3," + "(" * 3000 + "1" + ")" * 3000 + "\n"
LONG_NUMBERS = f" .long {DIGITS}\n il $3,{DIGITS}\n .align {DIGITS}\n .fill {DIGITS},8,1\n .comm x,{DIGITS}\n lqd $3,{DIGITS}($3)\n"
MACHINE = "cell-machine 1\nlines 1\nbudget 1000\nspe\n"
# a program that uses the store to its end, as examples/races/reuse_race.s does it with less
FULL = (ROOT / "examples" / "races" / "reuse_race.s").read_bytes() + b"\t.org 0x3ffe0\nstack:\t.space 32\n"
FULL_MACHINE = f"{MACHINE}source full.s\nshow mem 0 32\n".encode()
OF_FULL: Dict[str, Any] = {"files": {"full.s": FULL, "full.cell": FULL_MACHINE}, "examples": ["races/reuse_race.out"]}  # of a Row
RECORDED = ["reuse_race.out"]
PLACED = r"""start:	.org 4	# moves on by four bytes
a: b:	il $3,1 /* an "instruction" */ # and "more
	.data
	.ascii "a\40\400\"#/*,"	# nine bytes
	.byte 1,/*,*/2
	.section .text.more, "ax"
	.align 4
c:	.long c,b
	.p2align 2
	.space 0x4
	.section .rodata
d:	.align 2
	.asciz ""
	.align 0
e:	.quad -1
	.org 0x100
	.align 3
f:
"""
LABELS = "^0x00000 start\n0x00004 a\n0x00004 b\n0x00010 c\n0x0008b d\n0x0008d e\n0x00100 f$"
WHOLE = b"\tstop\t0\t# a.s:1\n"
OLD = b"\tlnop\t# what stood there\n"
HUNT = b"".join(whole(iter([
    b'{"part":3,"version":"1.0.0","program":"","machine":"m.cell","sum":"%s"}\n' % (b"0" * 64),
    b'{"hunt":1,"seed":1,"from":0,"runs":1,"expects":false,"all_stopped":1,"left_out":0,"steps":1'
    + b"".join(b',"%s":{"runs":0,"first":null}' % flaw.encode() for flaw in FLAWS) + b"}\n",
    b'{"number":0,"end":"AllStopped","runs":1,"first":0,"places":[],"words":[]}\n',
    b'{"text":"","spans":[],"digits":"","endings":[0],"runs":[1],"first":[0]}\n', b'{"kinds":"AAAAAAAAAAA=","runs":[1]}\n',
])))


def part_of(site: str) -> bytes:
    """What the program of ./hunt prints with --json of a race at one site, as far as tools/site_lines reads it."""
    return b'{"hunt":1,"seed":1}\n{"race":" | %s","key":"","runs":1,"first":0}\n' % site.encode()


# What a Row does with its folder before and after the call; `more`, below, is all else that a Row has.
Before = Callable[[pathlib.Path], None]
After = Callable[[pathlib.Path], Optional[str]]


def make_fifo(name: str) -> Before:
    return lambda folder: os.mkfifo(folder / name)


def make_link(target: str, name: str) -> Before:
    return lambda folder: (folder / name).symlink_to(target)


def is_left(name: str, wanted: bytes, mode: Optional[int] = None) -> After:
    """What is wrong with a file in the folder: its bytes, its mode, or that a hidden file was left beside it."""

    def fault(folder: pathlib.Path) -> Optional[str]:
        path = folder / name
        found = path.read_bytes() if path.exists() else None
        if found != wanted:
            return f"{name} has {found!r}"
        if mode is not None and stat.S_IMODE(path.stat().st_mode) != mode:
            return f"the mode of {name} is {stat.S_IMODE(path.stat().st_mode):o}"
        hidden = [other.name for other in folder.iterdir() if other.name.startswith(".")]
        return f"{hidden[0]} was left" if hidden else None

    return fault


def is_still_a_link(name: str) -> After:
    return lambda folder: None if (folder / name).is_symlink() else f"{name} is no link any more"


def link_twice(folder: pathlib.Path) -> None:
    os.link(folder / "whole.s", folder / "other.s")


def make_mode(mode: int) -> Before:
    return lambda folder: (folder / "whole.s").chmod(mode)


def rewritten(name: str, text: str, status: int, **more: Any) -> Row:
    """A row of from_gas on one source."""
    return Row(f"from_gas: {name}", ["tools/from_gas", "a.s"], status, files={"a.s": text.encode("latin1")}, **more)


def explained(name: str, file: str, text: str, **more: Any) -> Row:
    """A row of explain on one faulty file."""
    return Row(f"explain: {name}", ["tools/explain", file], 1, files={file: text.encode("latin1")}, **more)


def written(name: str, target: str, status: int = 0, **more: Any) -> Row:
    """A row of from_gas -o, where whole.s was there before."""
    return Row(f"from_gas -o: {name}", ["tools/from_gas", "-o", target, "a.s"], status, files={"a.s": b" stop\n", "whole.s": OLD}, **more)


def full(tool: str, record: Sequence[str], status: int, **more: Any) -> Row:
    """A row of a tool on the program that fills the store."""
    return Row(f"{tool}: a program that fills the store", [f"tools/{tool}", "full.cell", *record], status, **OF_FULL, **more)


OF_FROM_GAS = [
    rewritten("names that are twice others, set behind their uses", DOUBLED, 0, printed=r"il\t\$3,1073741824"),
    rewritten("200 of them", "".join(f"a{number}=a{number - 1}\n" for number in range(200, 0, -1)), 1, said="^a.s:1: more than 100 "),
    rewritten("comments that nothing ends", "/* " * 100_000, 1, said=r"^a.s:1: `/\*` is neither an instruction"),
    rewritten("blanks within a line", f" il $3,1{' ' * 200_000}+1{' ' * 200_000}\n", 0, printed=r"il\t\$3,2"),
    rewritten("quotes that nothing ends", ' .data\n .ascii "' + '\\"' * 50_000, 1, said="^a.s:2: strings must be in"),
    rewritten("more bytes than the store has", " .data\n" + " .fill 4096,4,1\n" * 500, 1, said=r"^a.s:18: `\.fill` goes beyond the end of the local store"),
    rewritten("numbers of 5,000 digits", LONG_NUMBERS, 1, said=r"^a.s:6: `9{24}\.\.` has more than 64 bits"),
    rewritten("nested parentheses", PARENTHESES, 1, said="^a.s:1: more than 100 nested parentheses"),
    rewritten("a character of no octal digit", " il $3,'\\8\n il $4,'\\7\n", 0, printed=r"il\t\$3,56.*\n.*\$4,7"),
    rewritten("a blank beyond ASCII", " il $3,1\n\xa0\n", 1, said=r"^a.s:2: `\\xa0` is neither an instruction"),
    Row("from_gas: a name that isn't UTF-8", ["tools/from_gas", "a\udcff\x1b.s"], 0, printed=r"# a\\xff\\x1b\.s:1", files={"a\udcff\x1b.s": b" stop\n"}),
    Row("from_gas: a name in other letters", ["tools/from_gas", "\u0436.s"], 0, printed="# \u0436.s:1", files={"\u0436.s": b" stop\n"}),
    Row("from_gas: a file without an end", ["tools/from_gas", "/dev/zero"], 2, said=r"^from_gas: /dev/zero: it has more than 33,554,432 bytes"),
    Row("from_gas: a folder", ["tools/from_gas", "/"], 2, said=r"^from_gas: /: Is a directory"),
    Row("from_gas: what can't be read", ["tools/from_gas", UNREADABLE], 2, said=f"^from_gas: {UNREADABLE}: Input/output error"),
]

OF_TARGETS = [
    written("a file that stands there", "whole.s", before=make_mode(0o640), after=is_left("whole.s", WHOLE, 0o640)),
    written("a file of two names", "whole.s", before=link_twice, after=is_left("other.s", WHOLE)),
    written("a link to a file", "link", before=make_link("whole.s", "link"), after=is_left("whole.s", WHOLE)),
    written("a link to a file stays one", "link", before=make_link("whole.s", "link"), after=is_still_a_link("link")),
    written("a link to what isn't there", "link", before=make_link("new.s", "link"), after=is_left("new.s", WHOLE)),
    written("a device", "link", before=make_link("/dev/null", "link"), after=is_still_a_link("link")),
    written("a full device", "link", 2, said="^from_gas: link: No space left", before=make_link("/dev/full", "link"), after=is_still_a_link("link")),
    written("a file that may not be written", "whole.s", 2, said="^from_gas: whole.s: ", before=make_mode(0o444), after=is_left("whole.s", OLD, 0o444)),
    written("a folder that isn't there", "none/whole.s", 2, said="^from_gas: none/whole.s: No such file"),
    written("a folder", ".", 2, said="^from_gas: .: Is a directory"),
    Row("hunts --sarif: a file that may not be written", ["tools/hunts", "--sarif", "whole.s", "-"], 2, said="^whole.s: ", printed="",
        files={"whole.s": OLD}, standard_input=HUNT, before=make_mode(0o444), after=is_left("whole.s", OLD, 0o444)),
]

OF_EXPLAIN = [
    explained("names that are twice others, set behind their uses", "a.s", DOUBLED.replace("\n", ";"), printed="^a.s:1: UnknownName: names have no values"),
    explained("nested parentheses", "a.s", PARENTHESES, printed="^a.s:1: BadOperand: "),
    explained("numbers of 5,000 digits", "a.s", LONG_NUMBERS, printed=r"^a.s:1: BadNumber: `9{40}\.\.` has more than 64 bits"),
    explained("a character", "a.s", " il $3,'\\8\n", printed="^a.s:1: "),
    explained("a blank beyond ASCII", "a.s", " il $3,1\n\xa0\n", printed="^a.s:2: BadChar: the byte 0xa0"),
    explained("comments that nothing ends", "a.s", "/* " * 100_000, printed="^a.s:1: BadChar: a comment of several lines"),
    explained("blanks within a line", "a.s", f" il $3,1{' ' * 200_000}+1{' ' * 200_000}\n", printed="^a.s:1: BadOperand: "),
    explained("quotes that nothing ends", "a.s", ' .data\n .ascii "' + '\\"' * 50_000, printed="^a.s:2: BadChar: a string"),
    explained("a number of 5,000 digits in a machine file", "a.cell", f"{MACHINE}entry {DIGITS}\n", printed=r"^a.cell:5: `9{40}\.\.` is no number"),
    explained("a number of 5,000 digits in a record", "a.out", f"cell-record 2\nx 0 {DIGITS}\nsteps {DIGITS}\n", printed="^a.out:2: a number of `x 0 9"),
    explained("a name that isn't UTF-8", "a\udcff.cell", "", printed=r"^a\\xff.cell:1: "),
    explained("a source that is a pipe", "a.cell", f"{MACHINE}source pipe.s\n", printed="^a.cell:5: `pipe.s` is no regular file", before=make_fifo("pipe.s")),
    explained("a source without an end", "a.cell", f"{MACHINE}source /dev/zero\n", printed="^a.cell:5: `/dev/zero` is no regular file"),
    Row("explain: 16,384 lines that place words", ["tools/explain", "a.cell"], 0, printed=r"\A\Z",
        files={"a.cell": MACHINE.encode() + b"".join(b"code %d 00000000\n" % at for at in range(0, 65_536, 4))}),
    Row("explain: a pipe", ["tools/explain", "/dev/stdin"], 1, printed="^/dev/stdin:5: the address has to be a multiple of 4",
        standard_input=f"{MACHINE}entry 2\n".encode()),
    Row("explain: a record in a pipe", ["tools/explain", "/dev/stdin"], 1, printed="^/dev/stdin:3: the number of steps before it is 1",
        standard_input=b"cell-record 1\nx 0\nsteps 2\n"),
    Row("explain: a file without an end", ["tools/explain", "/dev/zero"], 1, printed="^/dev/zero: the file is too long"),
    Row("explain: a folder", ["tools/explain", "/"], 2, said="^explain: /: it is a folder: name a file"),
    Row("explain: what can't be read", ["tools/explain", UNREADABLE], 2, said=f"^explain: {UNREADABLE}: Input/output error"),
]

OF_PLACES = [
    Row("listing: a program that fills the store", ["tools/listing", "full.s"], 0, printed=r"3ffe0 00000000\.\.(.*\n)*0x3ffe0 stack$", **OF_FULL),
    Row("listing: 66,000 lines", ["tools/listing", "a.s"], 0, printed=r"^66001 00000 00000001 +stop 0x0001",
        files={"a.s": b"\n" * 66_000 + b" stop 1\n"}),
    Row("listing: a source of 4 MiB", ["tools/listing", "a.s"], 0, printed=r"^ 101 00000 00000001",
        files={"a.s": (b"#" * 41_939 + b"\n") * 100 + b" stop 1\n"}),
    Row("listing: lines of all kinds", ["tools/listing", "a.s"], 0, printed=LABELS, files={"a.s": PLACED.encode()}),
    Row("listing: what a terminal obeys", ["tools/listing", "a.s"], 0, printed=r"# \\x1b\[31m \\x9b " + "\u0436$",
        files={"a.s": b" stop 1 # \x1b[31m \x9b \xd0\xb6\n"}),
    Row("listing: a number of 5,000 digits", ["tools/listing", "a.s"], 1, said="^listing: a.s:1: BadNumber: \\.long 9{40,200}\n    tools/explain a.s ", files={"a.s": LONG_NUMBERS.encode()}),
    Row("listing: a file without an end", ["tools/listing", "/dev/zero"], 1, said="^listing: /dev/zero: cell: source 0 is too long"),
    Row("listing: a machine file", ["tools/listing", "a.cell"], 1, said="^listing: a.cell is a machine file: name one of its sources", files={"a.cell": MACHINE.encode()}),
    Row("listing: a folder", ["tools/listing", "/"], 2, said="^listing: /: it is a folder: name a file"),
    Row("listing: what can't be read", ["tools/listing", UNREADABLE], 2, said=f"^listing: {UNREADABLE}: Input/output error"),
    Row("listing: a name that isn't UTF-8", ["tools/listing", "a\udcff.s"], 2, said=r"^listing: a\\xff.s: No such file"),
    full("race", RECORDED, 1, printed=r"full\.s:\d+: stqd"),
    full("states", RECORDED, 0, printed="^spe 0 stopped"),
    full("picture", RECORDED, 0, printed=r"full\.s"),
    full("debug", [], 0, printed="stack", standard_input=b"break stack\nquit\n"),
    Row("site_lines: a carriage return in a comment", ["tools/site_lines", "--json", "a.cell"], 0, printed=r'"places":\["reuse_race\.s:5"\]',
        standard_input=part_of("x 0 at 0x00000"), files={"a.cell": f"# a comment\r spe\n{MACHINE}source reuse_race.s\n".encode()}, examples=["races/reuse_race.s"]),
    Row("site_lines: a faulty machine file", ["tools/site_lines", "--json", "a.cell"], 2,
        said=r"^site_lines: run_trace: machine file, line 5$", files={"a.cell": MACHINE.encode() + b"source\n"}),
    Row("site_lines: a number of 5,000 digits", ["tools/site_lines", "--json", "a.cell"], 2, said="is not a place of a.cell",
        standard_input=part_of(f"h {DIGITS}"), files={"a.cell": MACHINE.encode()}),
    Row("site_lines: neither form", ["tools/site_lines", "a.cell"], 2, said=r"\Asite_lines: give either --take FOLDER or --json ", files={"a.cell": MACHINE.encode()}),
    Row("site_lines: no output of hunt", ["tools/site_lines", "--json", "a.cell"], 2, said="^site_lines: standard input is not an output of ./hunt with --json$",
        standard_input=b"race\n", files={"a.cell": MACHINE.encode()}),
]

ONE_LINE = f"{MACHINE}code 0 00000000\n".encode()
PIPED = {"a.cell": f"{MACHINE}source /dev/stdin\n".encode()}
OF_HUNTS = [
    Row("hunt: a pipe that nobody writes", ["hunt", "pipe", "4", "--json"], 3, said=r"\Ahunt: pipe: it is a pipe without a writer: name a file", printed="",
        before=make_fifo("pipe")),
    Row("hunt: a source that is such a pipe", ["hunt", "a.cell", "4", "--json"], 3, said=r"\Ahunt: pipe: it is a pipe without a writer", printed="",
        files={"a.cell": f"{MACHINE}source pipe\n".encode()}, before=make_fifo("pipe")),
    Row("hunt: a machine file in a pipe", ["hunt", "/dev/stdin", "4"], 0, printed=r"\A/dev/stdin: 4 runs, seed 1: no data race", standard_input=ONE_LINE),
    Row("hunt: a machine file in a pipe, as a part", ["hunt", "/dev/stdin", "--runs", "4", "--json"], 0, printed=r'"machine":"/dev/stdin"', standard_input=ONE_LINE),
    Row("hunt: a source in a pipe", ["hunt", "a.cell", "4"], 0, printed=r"\Aa\.cell: 4 runs, seed 1: no data race", files=PIPED, standard_input=b" stop 1\n"),
    Row("hunt: a source in a pipe, for a part", ["hunt", "a.cell", "4", "--json"], 3,
        said=r"\Ahunt: /dev/stdin: this source is a pipe, but sources with absolute names are read twice", printed="", files=PIPED, standard_input=b" stop 1\n"),
    Row("hunts: a pipe that nobody writes", ["tools/hunts", "pipe"], 2, said=r"\Apipe: it is a pipe without a writer", printed="", before=make_fifo("pipe")),
    Row("hunts: a line without an end", ["tools/hunts", "/dev/zero"], 2, said=r"\A(/dev/zero:1: it has more than 268,435,456 bytes|hunts: )", printed="",
        seconds=120, megabytes=1024),
    Row("hunts: a folder", ["tools/hunts", "/"], 2, said="^/: Is a directory: name an output", printed=""),
    Row("hunts: no file", ["tools/hunts", "none"], 2, said="^none: No such file or directory: name an output", printed=""),
]

ROWS = [*OF_HUNTS, *OF_FROM_GAS, *OF_TARGETS, *OF_EXPLAIN, *OF_PLACES]


def a_pipe_is_written_through() -> Iterator[str]:
    """from_gas -o writes to a pipe, which stays one."""
    with tempfile.TemporaryDirectory(prefix="cell-hostile-") as room:
        folder = pathlib.Path(room)
        (folder / "a.s").write_bytes(b" stop\n")
        os.mkfifo(folder / "pipe")
        reader = os.open(folder / "pipe", os.O_RDWR | os.O_NONBLOCK)
        found = ended([str(ROOT / "tools" / "from_gas"), "-o", "pipe", "a.s"], folder, 120, 2048)
        if found is None or found.status or not stat.S_ISFIFO(os.stat(folder / "pipe").st_mode) or os.read(reader, 100) != WHOLE:
            yield f"the pipe wasn't written: {found}"
        os.close(reader)


def a_new_file_has_the_mode_of_the_mask() -> Iterator[str]:
    """from_gas -o makes a file as the mask of the process says."""
    with tempfile.TemporaryDirectory(prefix="cell-hostile-") as room:
        folder = pathlib.Path(room)
        (folder / "a.s").write_bytes(b" stop\n")
        ended(["sh", "-c", 'umask 027; exec "$@"', "sh", str(ROOT / "tools" / "from_gas"), "-o", "whole.s", "a.s"], folder, 10, 2048)
        mode = stat.S_IMODE((folder / "whole.s").stat().st_mode)
        if mode != 0o640:
            yield f"the mode is {mode:o}"


def an_interrupt_ends_the_wait_for_a_pipe() -> Iterator[str]:
    """explain waits for a pipe that nobody writes, until it is interrupted."""
    with tempfile.TemporaryDirectory(prefix="cell-hostile-") as room:
        folder = pathlib.Path(room)
        os.mkfifo(folder / "pipe")
        found = ended(["timeout", "-s", "INT", "2", str(ROOT / "tools" / "explain"), "pipe"], folder, 10, 2048)
        if found is None or found.status not in (124, 130) or found.error:
            yield f"it wasn't interrupted: {found}"


CHECKS = [a_pipe_is_written_through, a_new_file_has_the_mode_of_the_mask, an_interrupt_ends_the_wait_for_a_pipe]
