"""The options that every program has: --help, -h and --version, answered on standard output; --option=value, `--`, and options that there aren't."""
import os
import pathlib
import pty
import shutil
import subprocess
import tempfile
from typing import Iterator, List, Optional, Sequence, Tuple

from celltools.common.repository import ROOT, version
from lib.hostility.rows import Row

TOOLS = sorted(str(path.relative_to(ROOT)) for folder in ("tools", "tools/dev") for path in (ROOT / folder).iterdir() if path.is_file() and os.access(path, os.X_OK))
OWN_WORDS = {"tools/launch"}  # whose words are those of another program
PROGRAMS = ["hunt", *TOOLS]
READERS = [name for name in PROGRAMS if name not in OWN_WORDS]  # which refuse what is no option
OF_BOTH = ("tools/race", "tools/picture", "tools/states", "tools/witness", "tools/log")  # which take a machine file and a record
VERSION = rf"\Acell {version()}\nsources: [0-9a-f]{{64}}\nbin/: .*proved with .*\nprograms: .*\n\Z"
USAGE = r"\A(Usage: {name}[ \n]|Usage: \./hunt )"
FIRST = ("first.cell", "first.out")
DASHED = {"-m.cell": (ROOT / "examples" / "first.cell").read_bytes(), "-r.out": (ROOT / "examples" / "first.out").read_bytes()}
SECONDS = 60


def helped(name: str) -> List[Row]:
    """A program prints its help and its version, also between other words."""
    more = [] if name in OWN_WORDS or name not in OF_BOTH else [Row("help among others", [name, "m", "r", "--help"], 0, printed=USAGE.format(name=name))]
    return [*(Row("help", [name, option], 0, printed=USAGE.format(name=name)) for option in ("--help", "-h")), Row("version", [name, "--version"], 0, printed=VERSION), *more]


def unknown(name: str) -> Row:
    """A program names an option that it hasn't."""
    prefix = name.rpartition("/")[2]
    return Row("no such option", [name, "--frob=3"], 2, rf"\A{prefix}: there is no option '--frob(=3)?' \((\./)?{name} --help lists", printed=r"\A\Z")


ROWS = [
    *(row for name in PROGRAMS for row in helped(name)),
    *map(unknown, READERS),
    *(Row("an abbreviated option", [name, "--ru", "0", "first.cell"], 2, r"there is no option '--ru', did you mean '--run'\?", printed=r"\A\Z", examples=FIRST)
      for name in OF_BOTH),
    Row("a misspelt option", ["tools/race", "--rnu", "0", "first.cell"], 2, r"\Arace: there is no option '--rnu', did you mean '--run'\?", printed=r"\A\Z", examples=FIRST),
    Row("an abbreviated option", ["hunt", "first.cell", "--run=4"], 2, r"\Ahunt: there is no option '--run', did you mean '--runs'\? \(\./hunt --help lists the options\)\n\Z",
        printed=r"\A\Z", examples=FIRST),
    *(Row("a value after =", [name, "--run=0", "--seed=2", "first.cell"], 0, examples=FIRST, said="") for name in ("tools/race", "tools/states", "tools/picture")),
    *(Row("names after --", [name, "--", "-m.cell", "-r.out"], 0, files=DASHED) for name in ("tools/race", "tools/states", "tools/picture", "tools/explain")),
    Row("options before --", ["tools/race", "--run=0", "--", "-m.cell"], 0, files=DASHED),
    Row("a name that looks like an option", ["tools/race", "-m.cell", "-r.out"], 2, r"\Arace: there is no option '-m\.cell' ", files=DASHED),
    Row("an option without its value", ["tools/race", "first.cell", "--run"], 2, r"\Arace: option '--run' requires a value ", examples=FIRST),
    Row("a flag with a value", ["tools/witness", "--force=yes", *FIRST], 2, r"\Awitness: option '--force' takes no value ", examples=FIRST),
    Row("a value that is no number", ["tools/race", "--run=x", "first.cell"], 2, r"\Arace: --run: 'x' is not a number from 0 to 4294967295 ", examples=FIRST),
    Row("a value that is no number", ["tools/hunts", "--missing=-1", "-"], 2, r"\Ahunts: --missing: '-1' is not a number from 0 to 4294967295 "),
    Row("options that exclude one another", ["tools/hunts", "--missing=5", "--json", "-"], 2, r"\Ahunts: --missing prints no report: leave out --all, --json, --warn and --sarif "),
    Row("an unknown instruction", ["tools/vectors", "out", "frob"], 2, r"\Avectors: 'frob' is neither an instruction nor a kind of sequences ", printed=r"\A\Z"),
    Row("a folder and an archive", ["tools/vectors", "--archive", "a", "out"], 2, r"\Avectors: give a folder, or --archive FILE alone ", printed=r"\A\Z"),
    Row("no cases", ["tools/vectors", "--cases", "0", "out", "il"], 2, r"\Avectors: --cases and --jobs are at least 1 ", printed=r"\A\Z"),
    Row("a file as the folder", ["tools/vectors", "--cases", "1", "first.cell", "il"], 2, r"\Avectors: first\.cell/rows/il\.json: Not a directory: name a writable folder", examples=FIRST),
    Row("a word too many", ["tools/race", *FIRST, "3"], 2, r"\Arace: unexpected argument '3' ", examples=FIRST),
    Row("a missing word", ["tools/race", "first.cell"], 2, r"\Arace: give a machine file and a record", examples=FIRST),
    Row("a value after =", ["hunt", "--runs=3", "--seed=5", "--jobs=1", "first.cell"], 0, printed=r"\Afirst\.cell: 3 runs, seed 5: ", examples=FIRST),
    Row("values of both forms", ["hunt", "first.cell", "--from=7", "--runs", "2", "--json"], 0, printed=r'"from":7,"runs":2,', examples=FIRST),
    Row("a file after =", ["hunt", "first.cell", "2", "--expect=e"], 0, printed=r"\Afirst\.cell: 2 runs, ", files={"e": b"end AllStopped\n"}, examples=FIRST),
    Row("no value after =", ["hunt", "--runs=", "first.cell"], 2, r"\Ahunt: usage: .*\nhint: the value of --runs is a decimal number", printed=r"\A\Z", examples=FIRST),
    Row("a name after --", ["hunt", "--runs=3", "--", "-m.cell"], 0, printed=r"\A\./-m\.cell: 3 runs, ", files=DASHED),
    Row("a number after --", ["hunt", "--", "-m.cell", "3", "9"], 0, printed=r"\A\./-m\.cell: 3 runs, seed 9: ", files=DASHED),
    Row("a run after --", ["hunt", "--seed=2", "--", "-m.cell", "record", "3"], 0, printed=r"\Acell-record 2\n", files=DASHED),
    Row("an option without its value", ["hunt", "first.cell", "--seed"], 2, r"\Ahunt: option '--seed' requires a value ", printed=r"\A\Z", examples=FIRST),
    Row("a flag with a value", ["hunt", "first.cell", "--json=1"], 2, r"\Ahunt: option '--json' takes no value ", printed=r"\A\Z", examples=FIRST),
    Row("help of cell", ["cell", "--help"], 0, printed=r"\AUsage: \./cell run MACHINE\n"),
    Row("help of cell", ["cell", "-h"], 0, printed=r"\AUsage: \./cell run MACHINE\n"),
    Row("version of cell", ["cell", "--version"], 0, printed=VERSION),
    Row("help isn't the only word", ["cell", "--help", "first.cell"], 2, r"\Acell: usage: ", printed=r"\A\Z", examples=FIRST),
    Row("a record from a pipe", ["cell", "check", "first.cell", "/dev/stdin"], 5,
        r"\Acell: record file, line 2\n/dev/stdin: record file, line 2\nhint: its line isn't shown: it is a pipe", examples=FIRST, standard_input=b"cell-record 2\nx 0\n"),
    Row("a machine file from a pipe", ["cell", "check", "/dev/stdin", "r"], 6, r"\Acell: step 3 is not allowed\nr:2: x 0 4\nhint: step 3 can't happen here; ",
        files={"r": b"cell-record 2\nx 0 4\nsteps 4\n"}, standard_input=DASHED["-m.cell"]),
    Row("a hint that nobody reads", ["tests/lib/hostility/redirect", "2>&-", "cell", "run", "none"], 3, printed=r"\A\Z"),
    Row("a hint on a full disk", ["tests/lib/hostility/redirect", "2>/dev/full", "cell", "run", "none"], 3, printed=r"\A\Z"),
    Row("a file that is named like an option", ["cell", "run", "--help"], 0, printed=r"\Acell-record 2\n", files={"--help": DASHED["-m.cell"]}),
]  # fmt: skip


# ---- hints: what tests/cases/hints can't ask

def asked(words: Sequence[str], folder: pathlib.Path, path: Optional[str] = None, before: str = "") -> Tuple[int, str, str]:
    """The status, the output and the error of a call in a folder, after something that a shell does first."""
    environment = {**os.environ, "PATH": path or os.environ["PATH"]}
    done = subprocess.run(["sh", "-c", f'{before} exec "$@"', "sh", *words], cwd=folder, env=environment, capture_output=True, text=True, timeout=SECONDS)
    return done.returncode, done.stdout, done.stderr


def proved_line_alone() -> Iterator[str]:
    """Without Python, without setpriv, with a setpriv of another kind, and with descriptor 9 in use, ./cell answers as the program itself."""
    with tempfile.TemporaryDirectory(prefix="cell-hints-") as room:
        folder = pathlib.Path(room)
        (folder / "bad").write_text("cell-machine 1\nlnies 4\n")
        bare, other = folder / "bare", folder / "other"
        for place in (bare, other):
            place.mkdir()
            for name in ("sh", "readlink", "dirname", "find", "cat", "sort", "sha256sum", "cut", "sed", "env"):
                (place / name).symlink_to(shutil.which(name) or name)
        (other / "setpriv").write_text("#!/bin/sh\necho \"setpriv: unrecognized option: pdeathsig\" >&2\nexit 1\n")
        (other / "setpriv").chmod(0o755)
        no_python = folder / "no_python"
        shutil.copytree(bare, no_python, symlinks=True)
        (no_python / "setpriv").symlink_to(shutil.which("setpriv") or "setpriv")
        line = "cell: machine file, line 2\n"
        for what, path, before in (("no setpriv", str(bare), ""), ("another setpriv", str(other), ""), ("no Python", str(no_python), ""), ("9 in use", None, "exec 9</dev/null;")):
            found = asked([str(ROOT / "cell"), "run", "bad"], folder, path, before)
            if found != (5, "", line):
                yield f"{what}: {found}"
            good = asked([str(ROOT / "cell"), "asm", "/dev/null"], folder, path, before)
            if good != (0, "entry 0x00000\n", ""):
                yield f"{what}, and nothing is refused: {good}"


def written_to_terminal(words: Sequence[str], folder: pathlib.Path) -> Optional[Tuple[int, bytes]]:
    """The status of a call, and what it writes to a terminal as its standard error; None if no terminal can be made here."""
    try:
        ours, theirs = pty.openpty()
    except OSError:
        return None
    done = subprocess.run(words, cwd=folder, stdin=subprocess.DEVNULL, stdout=subprocess.PIPE, stderr=theirs, timeout=SECONDS)
    os.close(theirs)
    said = b""
    try:
        while part := os.read(ours, 1 << 16):
            said += part
    except OSError:  # the terminal is closed, and all is read
        pass
    os.close(ours)
    return done.returncode, said


def races_are_led_on() -> Iterator[str]:
    """After a race that ./cell check finds, a person reads how to go on; a program doesn't, nor is anything said of a record without one."""
    race = "examples/races/reuse_race"
    with tempfile.TemporaryDirectory(prefix="cell-hints-") as room:
        folder = pathlib.Path(room)
        (folder / "examples").symlink_to(ROOT / "examples")
        shutil.copy(ROOT / f"{race}.out", folder / "my race.out")
        calls = [(["check", f"{race}.cell", "my race.out"], 1, f"hint: tools/race {race}.cell 'my race.out' explains this race; "
                  f"tools/witness {race}.cell 'my race.out' writes both orders as records\r\n"), (["check", "examples/first.cell", "examples/first.out"], 0, "")]
        for words, status, line in calls:
            found = written_to_terminal([str(ROOT / "cell"), *words], folder)
            if found is None:
                print("options: races_are_led_on: skipped, since no terminal can be made here")
            elif found != (status, line.encode()):
                yield f"{' '.join(words)} to a terminal: {found}"
            done = asked([str(ROOT / "cell"), *words], folder)
            if done[0] != status or done[2]:
                yield f"{' '.join(words)}: {done}"


CHECKS = [proved_line_alone, races_are_led_on]
