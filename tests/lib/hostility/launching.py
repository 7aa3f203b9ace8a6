"""How ./cell, ./hunt and the tools come to the programs that they run: a copy of them in a folder of small crates, with an `rt` that proves nothing."""
import contextlib
import os
import pathlib
import shutil
import signal
import subprocess
import sys
import tempfile
import time
from typing import Callable, Dict, Iterator, List, Tuple

from celltools.common.repository import ROOT
from lib.hostility.rows import Ended, Row, ended, shown

SECONDS = 120  # after which a program hangs, also on a full machine
MEGABYTES = 2048
NOBODY = 65534
PATH_WITHOUT_KIT = "/usr/bin:/bin"
MACHINE = b"cell-machine 1\nlines 1\nbudget 1\nspe\n"
PROGRAM = """#!/bin/sh
[ "$1 $3" = "check /dev/null" ] && { echo "cell: record file, line 1" >&2; exit 5; }
[ "$1" = plan ] && exit
echo "ran ${0##*/} ${*%% --until *}"
"""
# What `rt all check` and `rt run` print and leave, as far as the launcher looks at it. With the file `slow` it never ends, and says where it is.
RT = f"""#!/bin/sh
case $1 in
version)
    echo "kit of tests"
    ;;
all)
    [ -e slow ] && {{ echo "== cell_cli"; : >begun; exec sleep 60; }}
    printf '%s\\n' "== cell_cli" "== hunt" "== run_trace" "== summary" "3 of 3 crates ok"
    ;;
run)
    mkdir -p out && cat >"out/${{PWD##*/}}" <<'END' && chmod +x "out/${{PWD##*/}}"
{PROGRAM}END
    ;;
try)
    shift
    echo "tried $*"
    ;;
esac
"""
# What runs in a clone, with its status and the beginning of what it prints.
CALLS_IN_CLONES: List[Tuple[List[str], int, bytes]] = [
    (["cell", "run", "examples/first.cell"], 0, b"cell-record 2\n"), (["cell", "check", "examples/first.cell", "examples/first.out"], 0, b"accepted 3\n"),
    (["hunt", "examples/first.cell", "4"], 0, b"examples/first.cell: 4 runs, seed 1: no data race"), (["cell", "--version"], 0, b"cell "),
    (["tools/race", "examples/races/reuse_race.cell", "examples/races/reuse_race.out"], 1, b"race 10 14\n"), (["tools/explain", "examples/first.cell"], 0, b""),
]  # fmt: skip
TOLD = [f"cell: {number} of 3 crates, {name}".encode() for number, name in enumerate(("cell_cli", "hunt", "run_trace"), 1)]


def of_others(_: str, names: List[str]) -> List[str]:
    """What other Pythons keep compiled. What this one keeps is copied: to compile it takes longer than all else here."""
    return [name for name in names if name.endswith(".pyc") and f".{sys.implementation.cache_tag}." not in name]


@contextlib.contextmanager
def unbuilt() -> Iterator[pathlib.Path]:
    """A checkout of three crates, of which nothing is built, with an `rt` in kit/ and a machine file."""
    with tempfile.TemporaryDirectory(prefix="cell-launching-") as room:
        folder = pathlib.Path(room).resolve()
        shutil.copytree(ROOT / "tools", folder / "tools", ignore=of_others)
        for name in ("cell", "hunt", "VERSION"):
            shutil.copy(ROOT / name, folder)
        for crate in ("cell_cli", "hunt", "run_trace"):
            for part in ("src", "specs", "proofs"):
                (folder / "crates" / crate / part).mkdir(parents=True)
        shutil.copytree(ROOT / "crates" / "spu_decode" / "specs", folder / "crates" / "spu_decode" / "specs")
        (folder / "crates.txt").write_text("cell_cli:\nhunt:\nrun_trace:\n")
        (folder / "kit").mkdir()
        (folder / "kit" / "rt").write_text(RT)
        (folder / "kit" / "rt").chmod(0o755)
        (folder / "first.cell").write_bytes(MACHINE)
        (folder / "first.out").write_bytes(b"cell-record 2\nsteps 0\n")
        yield folder


def path_with_rt(folder: pathlib.Path) -> str:
    """The PATH of that checkout."""
    return f"{folder / 'kit'}:{os.environ['PATH']}"


def called(folder: pathlib.Path, *words: str) -> Ended:
    """What comes of a call in that checkout."""
    command = [str(folder / words[0]), *words[1:]]
    found = ended(command, folder, SECONDS, MEGABYTES, environment={"PATH": path_with_rt(folder), "CELL_TRY": ""})
    return found or Ended(-1, b"", f"no end within {SECONDS} seconds".encode())


def first_calls_tell_progress() -> Iterator[str]:
    """Whatever is called first builds the programs, and says how far it is."""
    calls = [("hunt", "first.cell", "4"), ("hunt", "first.cell", "record", "2"), ("tools/picture", "--run", "2", "first.cell"),
             ("tools/race", "first.cell", "first.out"), ("tools/states", "first.cell", "first.out"), ("tools/explain", "first.cell"),
             ("tools/listing", "first.cell"), ("tools/debug", "first.cell"), ("cell", "asm", "first.cell")]
    for words in calls:
        with unbuilt() as folder:
            found = called(folder, *words)
            if not all(line in found.error for line in TOLD):
                yield "\n".join([f"{' '.join(words)} doesn't tell how far it builds", *shown(found)])


def first_hunt_answers() -> Iterator[str]:
    """A hunt builds all programs at once, and answers."""
    with unbuilt() as folder:
        found = called(folder, "hunt", "first.cell", "4")
        if found.status != 0 or found.output != b"ran hunt first.cell 4 --tools tools\n":
            yield "\n".join(["the first hunt doesn't answer", *shown(found)])
        again = called(folder, "cell", "run", "first.cell")
        if again.error or again.output != b"ran cell_cli run first.cell\n":
            yield "\n".join(["the hunt has not built all programs", *shown(again)])


def unbuilt_is_no_refusal() -> Iterator[str]:
    """Where nothing can be built, a hunt says so."""
    with unbuilt() as folder:
        (folder / "kit" / "rt").unlink()
        for name in ("sh", "readlink", "dirname", "find", "sort", "sha256sum", "cut", "cat"):
            (folder / "kit" / name).symlink_to(shutil.which(name) or name)
        found = ended([str(folder / "hunt"), "first.cell", "4"], folder, SECONDS, MEGABYTES, environment={"PATH": str(folder / "kit")})
        if found is None or found.status != 70 or not found.error.startswith(b"cell: not built, since the sources aren't those of bin/, and there is no rt to build it: "):
            yield "\n".join(["a hunt that can't be built isn't told", *(shown(found) if found else [])])


def killed_build_leaves_nothing() -> Iterator[str]:
    """A build that is killed leaves its log alone."""
    with unbuilt() as folder:
        (folder / "slow").touch()
        process = subprocess.Popen([folder / "cell", "run", "first.cell"], cwd=folder, env={**os.environ, "PATH": path_with_rt(folder), "CELL_TRY": ""},
                                   stderr=subprocess.DEVNULL, start_new_session=True)
        until = time.monotonic() + SECONDS
        while not (folder / "begun").exists() and time.monotonic() < until:
            time.sleep(0.01)
        os.killpg(process.pid, signal.SIGKILL)
        process.wait()
        left = sorted(path.name for path in (folder / "crates" / "cell_cli" / "out").iterdir())
        if left != ["build.log"]:
            yield f"a killed build leaves {' '.join(left)}"


def without_kit(folder: pathlib.Path, *words: str) -> Ended:
    """What comes of a call in that checkout on a machine without a kit."""
    command = [str(folder / words[0]), *words[1:]]
    found = ended(command, folder, SECONDS, MEGABYTES, environment={"PATH": PATH_WITHOUT_KIT, "CELL_TRY": ""})
    return found or Ended(-1, b"", f"no end within {SECONDS} seconds".encode())


@contextlib.contextmanager
def released() -> Iterator[pathlib.Path]:
    """A fresh checkout with programs in bin/, of which none is built."""
    with unbuilt() as folder:
        called(folder, "tools/dev/release")
        for path in folder.glob("crates/*/out"):
            shutil.rmtree(path)
        yield folder


def shipped_programs_are_taken() -> Iterator[str]:
    """Without a kit the programs of bin/ run at once, where they are of the sources as they are, and whole."""
    with released() as folder:
        for words, output in ((("hunt", "first.cell", "4"), b"ran hunt first.cell 4 --tools tools\n"), (("cell", "asm", "first.cell"), b"ran cell_cli asm first.cell\n")):
            found = without_kit(folder, *words)
            if found.status or found.error or found.output != output:
                yield "\n".join([f"{' '.join(words)} doesn't run the program of bin/", *shown(found)])
    changes: Dict[str, Callable[[pathlib.Path], object]] = {
        "a source that changed": lambda folder: (folder / "crates" / "hunt" / "src" / "new.rt").touch(),
        "a program that changed": lambda folder: (folder / "bin" / "hunt").write_bytes(b"#!/bin/sh\n"),
    }
    for what, change in changes.items():
        with released() as folder:
            change(folder)
            found = without_kit(folder, "cell", "asm", "first.cell")
            if found.status != 70:
                yield "\n".join([f"{what}: a program of bin/ is run", *shown(found)])


def is_closed(path: pathlib.Path) -> bool:
    """Whether others can't come through a folder."""
    return not path.stat().st_mode & 0o001


def read_only_checkouts_run() -> Iterator[str]:
    """In a checkout of another user, in which nothing may be written, the programs of bin/ run in place, and nothing is left there."""
    user = {} if os.geteuid() else {"user": NOBODY, "group": NOBODY, "extra_groups": []}
    with released() as folder:
        for path in filter(is_closed, folder.parents):
            path.chmod(path.stat().st_mode | 0o011)
        for path in (folder, *folder.rglob("*")):
            path.chmod(path.stat().st_mode & ~0o222 | 0o055 if path.is_dir() else path.stat().st_mode & ~0o222 | 0o044)
        try:
            for words, output in ((("hunt", "first.cell", "4"), b"ran hunt first.cell 4 --tools tools\n"), (("cell", "asm", "first.cell"), b"ran cell_cli asm first.cell\n"),
                                  (("tools/launch", "--version"), b"cell 1.0.0\n")):
                found = subprocess.run([folder / words[0], *words[1:]], cwd=folder, capture_output=True, timeout=SECONDS,
                                       env={"PATH": PATH_WITHOUT_KIT, "CELL_TRY": ""}, **user)  # type: ignore[call-overload]
                if found.returncode or found.stderr or not found.stdout.startswith(output):
                    yield "\n".join([f"{' '.join(words)} doesn't run in a checkout that can't be written", *shown(Ended(found.returncode, found.stdout, found.stderr))])
            if list(folder.glob("crates/*/out")):
                yield "something was written"
        finally:
            for path in (folder, *folder.rglob("*")):
                path.chmod(path.stat().st_mode | 0o200)


def clones_for_windows_run() -> Iterator[str]:
    """A clone by a Git that writes CR LF, as Git for Windows does, has the same bytes as one by another Git, and its scripts, tools and programs run."""
    if not (ROOT / ".git").exists() or not shutil.which("git"):
        print("launching: clones_for_windows_run: skipped, since this is no clone, or there is no git")
        return
    with tempfile.TemporaryDirectory(prefix="cell-clone-") as room:
        clone, plain = pathlib.Path(room, "clone"), pathlib.Path(room, "plain")
        for path, settings in (clone, ("core.autocrlf=true", "core.eol=crlf")), (plain, ("core.autocrlf=false", "core.eol=lf")):
            subprocess.run(["git", "clone", "-q", *(word for setting in settings for word in ("-c", setting)), ROOT, path], check=True, timeout=SECONDS)
        differing = subprocess.run(["diff", "-rq", "-x", ".git", plain, clone], capture_output=True, text=True, timeout=SECONDS).stdout
        if differing:
            yield f"a clone with CR LF has other files: {differing[:400]}"
        for words, status, output in CALLS_IN_CLONES:
            found = ended([str(clone / words[0]), *words[1:]], clone, SECONDS, MEGABYTES, environment={"CELL_TRY": ""})
            if found is None or found.status != status or not found.output.startswith(output) or found.error:
                yield "\n".join([f"{' '.join(words)} doesn't run in a clone with CR LF", *(shown(found) if found else [])])


def shipped_programs_are_compared() -> Iterator[str]:
    """Programs that are built here are compared with those of bin/, whichever kit built them; a difference fails only with the kit of bin/."""
    with released() as folder:
        proved = called(folder, "cell", "prove")
        if proved.status or b"byte by byte" not in proved.error:
            yield "\n".join(["what is proved isn't compared with bin/", *shown(proved)])
        manifest, hunt = folder / "bin" / "MANIFEST", folder / "bin" / "hunt"
        own = manifest.read_text()
        another = own.replace("kit of tests", "another kit")
        rows = ((another, False, 0, b"byte by byte"), (another, True, 0, b"by another kit: kit of tests; bin/ was built by another kit"),
                (own, True, 1, b"bin/hunt differs from the program that these sources give"))
        for kept, is_changed, status, said in rows:
            manifest.write_text(kept)
            if is_changed:
                hunt.write_bytes(b"#!/bin/sh\n")
            found = called(folder, "tools/launch", "--compare")
            if found.status != status or said not in found.error:
                yield "\n".join([f"{kept.splitlines()[0]}, {'one program changed' if is_changed else 'nothing changed'}: wrong answer", *shown(found)])


def full_file_is_told() -> Iterator[str]:
    """A limit on the size of files is told as every output that can't be written, and not by a signal; of a temporary file, as that."""
    with tempfile.TemporaryDirectory(prefix="cell-limit-") as room:
        folder = pathlib.Path(room)
        (folder / "m.cell").write_bytes(MACHINE + b"show ls 0 0 4096\n")
        (folder / "long.out").write_bytes(bytes(2000))
        for words, status, said in ((["cell", "run", "m.cell"], 4, "cell: cannot write"), (["hunt", "m.cell", "record", "0"], 4, "hunt: cannot write"),
                                    (["tools/states", "m.cell", "long.out"], 2, "states: a temporary file: File too large")):
            done = subprocess.run(["sh", "-c", 'ulimit -f 1; exec "$@" >out', "sh", ROOT / words[0], *words[1:]], cwd=folder, stderr=subprocess.PIPE, timeout=SECONDS)
            if done.returncode != status or done.stderr != f"{said}\n".encode():
                yield f"{' '.join(words)} into a file that is full ends with status {done.returncode}, and says {done.stderr!r}"


def tried_words_are_named_from_the_root() -> Iterator[str]:
    """Of a program that runs unproved, in another folder, the files that its words name have their whole names, also one that isn't there yet."""
    with unbuilt() as folder:
        (folder / "4").touch()
        words = ["hunt", "--runs", "4", "first.cell", "--until", "enough"]
        found = ended([str(folder / "tools" / "launch"), *words], folder, SECONDS, MEGABYTES, environment={"PATH": path_with_rt(folder), "CELL_TRY": "1"})
        if found is None or found.output != f"tried -- --runs 4 {folder}/first.cell --until {folder}/enough\n".encode():
            yield "\n".join([f"{' '.join(words)} is tried otherwise", *(shown(found) if found else [])])


ROWS = [
    Row("a machine file whose name awk takes for an assignment", ["tools/sources", "x=1.cell"], 0, printed=r"\Aa\.s\nb\.s\n\Z",
        files={"x=1.cell": b"spe\nsource b.s # one\n source a.s#\nsource /c.s\n"}, standard_input=b"source d.s\n"),
    Row("no machine file", ["tools/sources", "none.cell"], 2, said="cannot open none.cell|none.cell: No such file"),
]
CHECKS = [first_calls_tell_progress, first_hunt_answers, unbuilt_is_no_refusal, killed_build_leaves_nothing, shipped_programs_are_taken,
          read_only_checkouts_run, clones_for_windows_run, shipped_programs_are_compared, full_file_is_told, tried_words_are_named_from_the_root]
