"""How the programs of tools/ and tests/ end: with a status, and without a traceback, whatever a key, a full disk, a closed output or a fault of their own does.

All their temporary files are in one folder of the process, which TMPDIR names meanwhile. It is removed at the end, also after a signal.
"""
import errno
import os
import pathlib
import signal
import sys
from types import FrameType
from typing import Callable, List, NoReturn, Optional

from celltools.common.starting import why_missing

Main = Callable[[List[str]], int]
STOPPED = 130  # by Ctrl-C
CLOSED = 141  # what a shell tells of a program whose output was closed early, as by `| head`
FAILED = 2
FAULTY = 70  # by a fault of the program itself
ENDING = (signal.SIGHUP, signal.SIGTERM)  # signals that end a program, besides Ctrl-C
SIGNALLED = 128  # what a shell adds to a signal's number
FULL = (errno.ENOSPC, errno.EFBIG, errno.EDQUOT)  # where no more can be written


class Ended(BaseException):
    """A signal that ends the program."""

    def __init__(self, number: int) -> None:
        super().__init__(number)
        self.number = number


class Room:
    """The folder of a process for its temporary files. Its name is kept before it is made, so that no signal leaves it behind."""

    def __init__(self) -> None:
        self.before = os.environ.get("TMPDIR")
        self.name = ""

    def make(self) -> None:
        """Makes it, and names it to Python's tempfile and to all programs that are called. If it can't be made, temporary files are made as ever."""
        for folder in filter(None, (self.before, "/tmp", "/var/tmp")):
            self.name = os.path.join(folder, f"cell-{os.getpid()}-{os.urandom(8).hex()}")
            try:
                os.mkdir(self.name, 0o700)
            except OSError:
                self.name = ""
            else:
                return name_temporary(self.name)

    def remove(self) -> None:
        """Removes it with all that is in it."""
        if not self.name:
            return
        name_temporary(self.before)
        try:
            os.rmdir(self.name)
        except OSError:
            import shutil  # which takes a while to load
            shutil.rmtree(self.name, ignore_errors=True)


def name_temporary(folder: Optional[str]) -> None:
    """Names the folder for temporary files."""
    os.environ.pop("TMPDIR", None)
    if folder is not None:
        os.environ["TMPDIR"] = folder
    if "tempfile" in sys.modules:
        sys.modules["tempfile"].tempdir = None  # type: ignore[attr-defined]


ROOM = Room()


def end(main: Main, failed: int = FAILED) -> NoReturn:
    """Calls a program's `main` with the words of the command line, and ends the program with the status that it answers, or `failed` where the system does."""
    sys.unraisablehook = end_stopped
    status = status_of(main, failed)
    drop_faults()
    sys.exit(status)


def status_of(main: Main, failed: int) -> int:
    """The status with which a program ends."""
    try:
        return status_or_interrupt(main)
    except KeyboardInterrupt:
        status, said = STOPPED, ""
    except Ended as why:
        status, said = SIGNALLED + why.number, ""
    except ImportError as why:
        status, said = failed, why_missing(why)
    except BrokenPipeError:
        status, said = CLOSED, ""
    except OSError as why:
        status, said = failed, fault_words(why)
    except MemoryError:
        status, said = failed, "memory ran out"
    except Exception as why:  # whatever it is: its place helps more than a traceback does
        if isinstance(why.__context__, KeyboardInterrupt):  # argparse fails so where it is interrupted
            status, said = STOPPED, ""
        else:
            status, said = FAULTY, f"a fault of this program itself, in {place_of(why)}: {type(why).__name__}: {why}"
    drop_output()
    if said:
        tell(said)
    return status


def fault_words(why: OSError) -> str:
    """What the system couldn't do, and with which file. Standard output has its name here, as all files of users have, and temporary ones have none."""
    name = why.filename or ("a temporary file" if why.errno in FULL else "")
    return f"{name}: {why.strerror or why}" if name else str(why.strerror or why)


def status_or_interrupt(main: Main) -> int:
    """What `main` answers, when all that it printed is written. A signal is an exception meanwhile, so that temporary files are removed."""
    try:
        hear_signals()
        ROOM.make()
        status = status_or_exit(main)
        sys.stdout.flush()
        return status
    finally:
        try:
            ignore_signals()
        finally:  # also if a signal came first
            ROOM.remove()
            signal.signal(signal.SIGINT, signal.SIG_DFL)


def hear_signals() -> None:
    """Makes exceptions of the signals that end a program, but for those that it was started to ignore, as by nohup."""
    for number in ENDING:
        if signal.getsignal(number) is not signal.SIG_IGN:
            signal.signal(number, end_by)
    signal.signal(signal.SIGINT, signal.default_int_handler)


def end_by(number: int, _: Optional[FrameType]) -> NoReturn:
    ignore_signals()
    raise Ended(number)


def ignore_signals() -> None:
    """Lets no further signal disturb the program's end."""
    for number in (signal.SIGINT, *ENDING):
        signal.signal(number, pass_over)


def pass_over(_number: int, _frame: Optional[FrameType]) -> None:
    """Does nothing. With SIG_IGN in its place, Python prints a traceback for a signal that came at the same moment as the one before it."""


def status_or_exit(main: Main) -> int:
    """What `main` answers, or the status with which it ends the program."""
    try:
        return main(sys.argv[1:])
    except SystemExit as ended:
        if not isinstance(ended.code, int):
            raise
        return ended.code


def end_stopped(fault: "sys.UnraisableHookArgs") -> None:
    """Ends the program at a signal in a destructor: Python would print a traceback and go on."""
    if isinstance(fault.exc_value, (KeyboardInterrupt, Ended)):
        ROOM.remove()
        os._exit(SIGNALLED + fault.exc_value.number if isinstance(fault.exc_value, Ended) else STOPPED)
    sys.__unraisablehook__(fault)


def drop_faults() -> None:
    """Lets what couldn't be told of faults go nowhere, in place of a status of Python's own."""
    try:
        sys.stderr.flush()
    except OSError:
        os.dup2(os.open(os.devnull, os.O_WRONLY), sys.stderr.fileno())


def drop_output() -> None:
    """Lets what wasn't printed go nowhere: Python tries it once more as it ends."""
    os.dup2(os.open(os.devnull, os.O_WRONLY), sys.stdout.fileno())


def tell(said: str) -> None:
    """Says why the program ends, as far as it can."""
    try:
        print(f"{pathlib.Path(sys.argv[0]).name}: {said}", file=sys.stderr, flush=True)
    except OSError:
        pass


def place_of(why: BaseException) -> str:
    """The file and the line where an exception was raised."""
    import traceback  # which takes a while to load, and is hardly ever wanted
    frame = traceback.extract_tb(why.__traceback__)[-1]
    return f"{pathlib.Path(frame.filename).name}, line {frame.lineno}"
