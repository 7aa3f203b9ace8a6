"""How the programs of tools/ and tests/ start: each imports this module before all others. An interrupt then ends it without a word, until `end` of ending.py
takes over; its modules are found; and its texts are UTF-8 under every locale.

Python tells an interrupt of its own start by a traceback. So the first lines of a tool are for sh, and strings for Python: they look for Python, and start it
with interrupts ignored, up to here; and without what is installed beside its own library, which no tool uses and which may take longer to load than the tool.

A tool that can't start ends with status 2 and a line that says why, never with Python's status 1, which means that something was found. Debian's python3-minimal,
for example, lacks modules of the standard library.
"""
# the built-in part of the module `signal`, which is loaded at once
from _signal import SIG_DFL, SIGINT, signal  # type: ignore[import]

signal(SIGINT, SIG_DFL)

import errno  # noqa: E402
import io  # noqa: E402
import os  # noqa: E402
import sys  # noqa: E402

TYPE_CHECKING = False  # but for a checker of types
if TYPE_CHECKING:
    import typing
    Answer = typing.TypeVar("Answer")

OLDEST = (3, 9)  # of the Pythons that the programs are written for
MISUSED = 2
STOPPED = 130  # by Ctrl-C
OWN = ("celltools", "lib")  # packages of this repository
CLOSED = (os.O_WRONLY, os.O_RDONLY, os.O_WRONLY)  # how a standard file is opened that is closed, so that its use fails


class StandardInput(io.FileIO):
    """Standard input, whose faults name it."""

    def readinto(self, buffer: "typing.Any") -> "typing.Optional[int]":  # whatever can be written into, for which Python 3.9 has no name
        return named("standard input", super().readinto, buffer)

    def readall(self) -> bytes:
        return named("standard input", super().readall)


class StandardOutput(io.FileIO):
    """Standard output, whose faults name it."""

    def write(self, data: "typing.Any") -> int:
        return named("standard output", super().write, data)


def named(name: str, ask: "typing.Callable[..., Answer]", *given: object) -> "Answer":
    """What a function of a standard file answers."""
    try:
        return ask(*given)
    except OSError as why:
        raise OSError(why.errno, why.strerror, name) from None


def refuse_old() -> None:
    """Ends the program where Python is too old for it."""
    if sys.version_info < OLDEST:
        print("%s: it requires Python 3.9 or later, and this is %d.%d: install the package python3 of a newer system"
              % (os.path.basename(sys.argv[0]), *sys.version_info[:2]), file=sys.stderr)
        sys.exit(MISUSED)


def why_missing(why: ImportError) -> str:
    """Why a module can't be loaded, and what to do."""
    if (why.name or "").partition(".")[0] in OWN:
        return "its module %s can't be loaded: see that its folder is complete and can be read" % why.name
    return "this Python has no module %s: install the package python3 (python3-minimal isn't enough)" % (why.name or why)


def refuse_unloaded(kind: "typing.Type[BaseException]", why: BaseException, trace: "typing.Any") -> None:
    """Ends the program at an exception that comes before `end` of ending.py is called: what isn't a missing module is named with its file and line."""
    if isinstance(why, KeyboardInterrupt):
        os._exit(STOPPED)
    said = why_missing(why) if isinstance(why, ImportError) else "%s: %s" % (kind.__name__, why)
    while trace and trace.tb_next:
        trace = trace.tb_next
    place = " in %s, line %d" % (os.path.basename(trace.tb_frame.f_code.co_filename), trace.tb_lineno) if trace and not isinstance(why, ImportError) else ""
    try:
        print("%s: can't start%s: %s" % (os.path.basename(sys.argv[0]), place, said), file=sys.stderr, flush=True)
    finally:
        os._exit(MISUSED)


def find_modules() -> None:
    """Has the modules found that lie beside the program. With -I and PYTHONSAFEPATH its folder isn't among those where Python looks."""
    folder = os.path.dirname(os.path.realpath(sys.argv[0]))
    if folder not in sys.path:
        sys.path.insert(1, folder)


def open_closed() -> None:
    """Opens what is closed of the three standard files, each so that its use fails: else the next file that is opened would be taken for it."""
    for number, how in enumerate(CLOSED):
        try:
            os.fstat(number)
        except OSError as why:
            if why.errno == errno.EBADF:
                os.set_inheritable(os.open(os.devnull, how), True)


def name_encodings() -> None:
    """Has all texts in UTF-8. What isn't is shown as `\\xff`, and what can't be written, as it is escaped in Python."""
    sys.stdin = io.TextIOWrapper(io.BufferedReader(StandardInput(0, closefd=False)), encoding="utf-8", errors="backslashreplace")
    output = StandardOutput(1, "w", closefd=False)
    sys.stdout = io.TextIOWrapper(io.BufferedWriter(output), encoding="utf-8", errors="backslashreplace", line_buffering=output.isatty())
    sys.stderr = sys.stderr or open(2, "w", closefd=False)
    if isinstance(sys.stderr, io.TextIOWrapper):
        sys.stderr.reconfigure(encoding="utf-8", errors="backslashreplace")


refuse_old()
find_modules()
open_closed()
name_encodings()
sys.excepthook = refuse_unloaded
