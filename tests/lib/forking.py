"""Calls tools of this repository in processes that are forked from one which has loaded their modules already.

The start of Python with a tool's modules takes several times as long as what most calls of the tests ask for. A forked call differs by this start alone, which
stays tested by real ones: `starting` and `endings` of hostility, and the checks of all its topics. What follows is as it is there: a session, a folder, standard
files and a limit of memory of the call's own, the tool's file read and run from its first line on, and Python's own end, with its status. That the programs are
built is looked at once. It isn't multiprocessing's forkserver: where two threads look after the same process there, one of them may find no status.
"""
import atexit
import concurrent.futures
import contextlib
import functools
import gc
import json
import os
import pathlib
import resource
import runpy
import signal
import socket
import subprocess
import sys
import threading
from typing import List, NoReturn, Optional, Sequence, Tuple

from celltools.common.repository import ROOT
from celltools.run.runs import prepare

Answer = Tuple[int, bytes, bytes]  # the status, the output and the error of a call
TOOL = b'#!/bin/sh\n"trap"'  # how the programs begin that are Python's
MOST = 1 << 17  # bytes of a call's words
FILES = 4  # the standard ones, and one for the number of the process and its status
NUMBER = 4  # bytes of these
STARTING = threading.Lock()


def is_tool(program: pathlib.Path) -> bool:
    """Whether a program is a tool that can be forked."""
    with open(program, "rb") as file:
        return file.read(len(TOOL)) == TOOL


# ---- what asks

def ended(words: Sequence[str], folder: pathlib.Path, seconds: float, megabytes: int, standard_input: bytes = b"") -> Optional[Answer]:
    """A call of a tool that has ended, in a folder; None where it doesn't end in time, which ends it with whatever it started."""
    (given, feeding), *others = (os.pipe() for _ in range(FILES))
    theirs, ours = [given, *(end for _, end in others)], [end for end, _ in others]
    socket.send_fds(server(), [json.dumps([str(folder), megabytes << 20, *words]).encode()], theirs)
    for end in theirs:
        os.close(end)
    told = os.read(ours[-1], NUMBER)
    if not told:
        raise RuntimeError("the process has ended that forks")
    with concurrent.futures.ThreadPoolExecutor(FILES) as pool:
        pool.submit(feed, feeding, standard_input)
        reading = [pool.submit(read, end) for end in ours]
        is_late = bool(concurrent.futures.wait(reading, seconds).not_done)
        if is_late:
            os.killpg(int.from_bytes(told, "little"), signal.SIGKILL)
    output, error, status = (text.result() for text in reading)
    return None if is_late else (int.from_bytes(status, "little", signed=True), output, error)


def feed(end: int, data: bytes) -> None:
    """Writes to a pipe, of which its reader may leave some."""
    try:
        with open(end, "wb", buffering=0) as file:
            file.write(data)
    except BrokenPipeError:
        pass


def read(end: int) -> bytes:
    with open(end, "rb") as file:
        return file.read()


def server() -> socket.socket:
    """Where the process is asked that forks."""
    with STARTING:
        return started()


@functools.cache
def started() -> socket.socket:
    """The same; it is started first, and ends with this process, of whose processor time it becomes a part then."""
    ours, theirs = socket.socketpair(socket.AF_UNIX, socket.SOCK_SEQPACKET)
    with theirs:
        process = subprocess.Popen([sys.executable, "-S", "-m", "lib.forking"], cwd=ROOT / "tests", stdin=theirs.fileno())
    atexit.register(process.wait)
    atexit.register(ours.close)  # which comes first
    return ours


# ---- what is asked

def load() -> None:
    """Loads what the tools load, as far as they do."""
    prepare()
    for program in sorted(path for path in (ROOT / "tools").iterdir() if path.is_file() and is_tool(path)):
        with contextlib.suppress(Exception, SystemExit):  # a tool that fails does so again where it is called
            runpy.run_path(str(program))
    gc.freeze()


def forked() -> List[str]:
    """Forks for each call that is asked for. Answers the words of one in the process that makes it, which has its standard files."""
    with socket.socket(fileno=os.dup(0)) as asked:
        while True:
            said, files, _, _ = socket.recv_fds(asked, MOST, FILES, socket.MSG_CMSG_CLOEXEC)
            reap(os.WNOHANG if said else 0)
            if not said:
                sys.exit()
            if not os.fork():
                break
            for file in files:
                os.close(file)
    number = os.fork()
    if number:
        keep(number, files[-1])
    os.setsid()
    for standard, file in enumerate(files):
        if standard < 3:
            os.dup2(file, standard)
        os.close(file)
    return [*json.loads(said)]


def reap(how: int) -> None:
    """Waits for the processes that have kept calls."""
    with contextlib.suppress(ChildProcessError):
        while os.waitpid(-1, how)[0]:
            pass


def keep(number: int, telling: int) -> NoReturn:
    """Tells the number of a process, and its status once it has ended."""
    os.write(telling, number.to_bytes(NUMBER, "little"))
    status = os.waitstatus_to_exitcode(os.waitpid(number, 0)[1])
    os.write(telling, status.to_bytes(NUMBER, "little", signed=True))
    os._exit(0)


def begin_anew(folder: str, room: int, words: List[str]) -> None:
    """Makes this process what it is at the start of a call with these words."""
    os.chdir(folder)
    resource.setrlimit(resource.RLIMIT_AS, (room, room))
    sys.argv = words
    sys.stdout, sys.stderr = open(1, "w", closefd=False), open(2, "w", buffering=1, closefd=False)
    sys.excepthook = sys.__excepthook__
    del sys.modules["celltools.common.starting"]  # which is to open standard input, and to let interrupts end the call


def run(program: str) -> NoReturn:
    """Runs a tool, and ends as Python does, but for what it gives back to the system one by one."""
    try:
        runpy.run_path(program, run_name="__main__")
    except SystemExit as ended:
        sys.stdout.flush()
        sys.stderr.flush()
        if isinstance(ended.code, int):
            os._exit(ended.code)
        raise
    sys.exit()


if __name__ == "__main__":
    sys.path[0] = str(ROOT / "tools")
    load()
    where, bytes_of_room, *command = forked()
    begin_anew(where, int(bytes_of_room), command)
    run(command[0])
