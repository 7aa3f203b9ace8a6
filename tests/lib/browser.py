"""A headless browser that is launched once and asked by its own protocol, over two pipes: it opens pages, one after the other, answers what a script finds, and
takes keys and clicks. One that ends or is silent before it has answered its first requests doesn't run on this machine; later it is a fault."""
import fcntl
import json
import os
import pathlib
import select
import shutil
import signal
import time
from typing import Any, Callable, Dict, List, Optional, TypeVar

from lib.browser_room import FIRST_TITLE, Room

# the first one makes no windows, and takes three quarters of the processor time of the second
PROGRAMS = ("chromium-headless-shell", "chromium", "chromium-browser", "google-chrome", "chrome")
WORDS = ("--headless=new", "--no-sandbox", "--disable-gpu", "--hide-scrollbars", "--remote-debugging-pipe", "--no-first-run", "--no-default-browser-check",
         "--disable-dev-shm-usage", "--disable-breakpad", "--disable-crash-reporter", "--disable-background-networking", "--disable-component-update",
         "--disable-sync", "--mute-audio", "--password-store=basic")  # fmt: skip
PLAIN_WORDS = ("--no-zygote", "--in-process-gpu")  # added at a second start: fewer processes, which take longer to start
START_SECONDS = 120  # for the first requests
WAIT_SECONDS = 5  # for the end of a browser that has closed its pipes
HEIGHT = 900
TO_BROWSER, FROM_BROWSER = 3, 4  # the files by which it is asked and answers
CONTROL, SHIFT = 2, 8  # of a key or a click, by the protocol
NAMED_KEYS = {"Enter": (13, "\r"), "Escape": (27, ""), "Tab": (9, ""), "PageDown": (34, ""), "End": (35, ""), "Home": (36, ""), "Backspace": (8, ""),
              "ArrowLeft": (37, ""), "ArrowUp": (38, ""), "ArrowRight": (39, ""), "ArrowDown": (40, "")}  # each with its code and what it types


Told = Dict[str, Any]  # what the protocol tells, as JSON has it


class Silent(Exception):
    """The browser doesn't answer, or answers that a script failed."""


class Ended(Silent):
    """The browser has ended, or the process of its page."""


class Absent(Exception):
    """The browser doesn't run on this machine: it doesn't answer its first requests."""


Started = TypeVar("Started")


def started(start: Callable[[str, pathlib.Path, float, bool], Started], name: Optional[str], folder: pathlib.Path, seconds: float) -> Started:
    """A browser of a class, in the folder, that has answered its first requests; `seconds` is how long each later one may take. One that doesn't answer is started
    once more, plainly. Raises Absent if there is no answer then either."""
    for is_plain in (False, True):
        try:
            return start(name or "", folder / str(len(list(folder.iterdir()))), seconds, is_plain)
        except Absent as why:
            last = why
    raise last


def program() -> Optional[str]:
    """The browser that there is; None where there is none."""
    return next(filter(None, map(shutil.which, PROGRAMS)), None)


def pipe() -> List[int]:
    """The two ends of a pipe, with numbers that are none of the browser's."""
    ends = os.pipe()
    high = [fcntl.fcntl(end, fcntl.F_DUPFD_CLOEXEC, FROM_BROWSER + 1) for end in ends]
    for end in ends:
        os.close(end)
    return high


def how_ended(status: Optional[int]) -> str:
    """How a process ended with this status, which is minus the number of a signal that ended it: the end of a message; '' if the status isn't known."""
    if status is None:
        return ""
    return f" with status {status}" if status >= 0 else f" by signal {-status}, {signal.strsignal(-status)}"


class Browser:
    """A browser with two pages, which are opened anew for each look: one in the background, where nothing is painted, and one in front, which takes keys."""

    def __init__(self, name: str, folder: pathlib.Path, seconds: float, is_plain: bool = False) -> None:
        self.seconds, self.number, self.kept = min(seconds, START_SECONDS), 0, b""
        self.session: Optional[str] = None
        self.sessions: Dict[bool, str] = {}
        self.requests: List[str] = []  # the addresses that pages, their frames and workers asked for, from hear_requests on
        self.dialogs: List[str] = []  # the kinds of dialogs that pages opened and that were accepted, from hear_dialogs on
        self.status: Optional[int] = None  # with which the browser ended, or minus the number of a signal
        self.room = Room(folder)
        self.launch([name, *WORDS, *(PLAIN_WORDS if is_plain else ()), f"--user-data-dir={self.room.profile}", "about:blank"])
        self.greet(seconds)

    def launch(self, words: List[str]) -> None:
        """Starts the program, with the pipes by which it is asked and answers."""
        theirs_in, self.asking = pipe()
        self.answering, theirs_out = pipe()
        outputs = ((os.POSIX_SPAWN_OPEN, 1, os.devnull, os.O_WRONLY, 0), (os.POSIX_SPAWN_OPEN, 2, self.room.log, os.O_WRONLY | os.O_CREAT | os.O_APPEND, 0o600))
        files = ((os.POSIX_SPAWN_DUP2, theirs_in, TO_BROWSER), (os.POSIX_SPAWN_DUP2, theirs_out, FROM_BROWSER))
        try:
            self.process = os.posix_spawn(words[0], words, self.room.environment(), file_actions=[*outputs, *files])
        except OSError as why:
            os.close(self.asking)
            os.close(self.answering)
            raise Absent(f"{words[0]} can't be started: {why.strerror}") from why
        finally:
            os.close(theirs_in)
            os.close(theirs_out)

    def greet(self, seconds: float) -> None:
        """Asks the first requests. Raises Absent, and ends the browser, if it doesn't answer them."""
        try:
            self.call("Browser.getVersion")
            self.first_answer()
        except Silent as why:
            self.end()
            raise Absent(str(why)) from why
        except BaseException:
            self.end()
            raise
        self.seconds = seconds

    def first_answer(self) -> None:
        """Opens a small page and asks a script of it. Raises Silent if there is no right answer in time."""
        self.open(self.room.first_page(), HEIGHT, is_in_front=True)
        end = time.monotonic() + self.seconds
        why = Silent(f"it doesn't show a page{self.last_words()}")
        while time.monotonic() < end:
            try:
                if self.answer("document.title") == FIRST_TITLE:
                    return
            except Ended:
                raise
            except Silent as thrown:  # while one page gives way to another, too
                why = thrown
            time.sleep(0.05)
        raise why

    def has_ended(self) -> bool:
        """Whether the browser's process has ended."""
        if self.status is None:
            number, status = os.waitpid(self.process, os.WNOHANG)
            self.status = os.waitstatus_to_exitcode(status) if number else None
        return self.status is not None

    def last_words(self) -> str:
        """What the browser printed last, to end a message by; '' if it printed nothing."""
        printed = self.room.printed()
        return f": {printed}" if printed else ""

    def ending(self) -> Ended:
        """The exception that the browser has ended: how, and what it printed last."""
        end = time.monotonic() + WAIT_SECONDS
        while not self.has_ended() and time.monotonic() < end:
            time.sleep(0.02)
        return Ended(f"it ended{how_ended(self.status)}{self.last_words()}")

    def end(self) -> None:
        os.close(self.asking)
        os.close(self.answering)
        if not self.has_ended():
            os.kill(self.process, signal.SIGKILL)
            os.waitpid(self.process, 0)

    def open(self, address: str, width: int, is_in_front: bool = False) -> None:
        """Opens a page in a window of that width."""
        self.session = self.sessions.get(is_in_front)
        if self.session is None:
            page = self.call("Target.createTarget", url="about:blank", background=not is_in_front)["targetId"]
            self.session = self.sessions[is_in_front] = self.call("Target.attachToTarget", targetId=page, flatten=True)["sessionId"]
            self.call("Inspector.enable")  # which reports that the page's process crashed
        self.call("Emulation.setDeviceMetricsOverride", width=width, height=HEIGHT, deviceScaleFactor=1, mobile=False)
        self.call("Page.navigate", url=address)

    def hear_requests(self) -> None:
        """Begins to hear what pages ask for, with the frames and workers that they make."""
        self.requests = []
        self.open("about:blank", 1, is_in_front=True)
        self.call("Network.enable")
        self.call("Target.setAutoAttach", autoAttach=True, waitForDebuggerOnStart=False, flatten=True)

    def hear_dialogs(self) -> None:
        """Begins to accept the dialogs of the page that is open."""
        self.dialogs = []
        self.call("Page.enable")

    def hear(self, told: Told) -> None:
        """Takes in what the browser tells without being asked."""
        if told.get("method") == "Network.requestWillBeSent":
            self.requests.append(told["params"]["request"]["url"])
        elif told.get("method") == "Target.attachedToTarget":
            self.send("Network.enable", told["params"]["sessionId"])
        elif told.get("method") == "Inspector.targetCrashed":
            raise Ended(f"the process of a page crashed{self.last_words()}")
        elif told.get("method") == "Page.javascriptDialogOpening":
            self.dialogs.append(told["params"]["type"])
            self.send("Page.handleJavaScriptDialog", told["sessionId"], accept=True)

    def send(self, method: str, session: str, **words: object) -> None:
        """Sends a request whose answer nobody waits for."""
        self.number += 1
        self.write(json.dumps({"id": self.number, "method": method, "params": words, "sessionId": session}).encode() + b"\0")

    def key(self, name: str, modifiers: int = 0) -> None:
        """Presses a key and lets it go: one of NAMED_KEYS, or a letter."""
        code, text = NAMED_KEYS[name] if name in NAMED_KEYS else (ord(name.upper()) if name.isalnum() else 0, name)
        text = "" if modifiers & CONTROL else text
        self.call("Input.dispatchKeyEvent", type="keyDown", key=name, text=text, windowsVirtualKeyCode=code, modifiers=modifiers)
        self.call("Input.dispatchKeyEvent", type="keyUp", key=name, windowsVirtualKeyCode=code, modifiers=modifiers)

    def edit(self, command: str) -> None:
        """Does an editing command, as a menu does: copy, cut, paste, .."""
        self.call("Input.dispatchKeyEvent", type="rawKeyDown", key="F13", commands=[command])
        self.call("Input.dispatchKeyEvent", type="keyUp", key="F13")

    def click(self, x: float, y: float) -> None:
        """Clicks at a point of the window."""
        for kind in ("mousePressed", "mouseReleased"):
            self.mouse(kind, x, y)

    def mouse(self, kind: str, x: float, y: float) -> None:
        """Presses the mouse button at a point (`mousePressed`), or releases it (`mouseReleased`)."""
        self.call("Input.dispatchMouseEvent", type=kind, x=x, y=y, button="left", clickCount=1)

    def answer(self, script: str) -> Any:
        """What a script answers, at once or by a promise."""
        answer = self.call("Runtime.evaluate", expression=script, awaitPromise=True, returnByValue=True)
        if "exceptionDetails" in answer:
            raise Silent(str(answer["exceptionDetails"]))
        return answer["result"].get("value")

    def call(self, method: str, **words: object) -> Told:
        """The answer to one request."""
        self.number += 1
        number, asked = self.number, {"id": self.number, "method": method, "params": words}
        if self.session:
            asked["sessionId"] = self.session
        end = time.monotonic() + self.seconds
        self.write(json.dumps(asked).encode() + b"\0")
        while True:
            told = json.loads(self.message(end))
            self.hear(told)
            if told.get("id") == number:
                if "error" in told:
                    raise Silent(f"{method}: {told['error']}")
                found: Told = told["result"]
                return found

    def write(self, said: bytes) -> None:
        try:
            while said:
                said = said[os.write(self.asking, said):]
        except BrokenPipeError as why:
            raise self.ending() from why

    def message(self, end: float) -> bytes:
        """What the browser says next, as long as the time isn't over."""
        while b"\0" not in self.kept:
            if not select.select([self.answering], [], [], max(0, end - time.monotonic()))[0]:
                raise Silent(f"it doesn't answer within {self.seconds} seconds{self.last_words()}")
            got = os.read(self.answering, 1 << 16)
            if not got:
                raise self.ending()
            self.kept += got
        message, self.kept = self.kept.split(b"\0", 1)
        return message
