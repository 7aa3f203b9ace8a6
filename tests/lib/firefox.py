"""A headless Firefox that is asked by its own protocol, Marionette, over a socket: it opens a page, answers what a script finds, and takes keys and clicks. One
that ends or is silent before it has answered its first requests doesn't run on this machine."""
import contextlib
import json
import os
import pathlib
import re
import shutil
import signal
import socket
import subprocess
import time
from typing import Any, List, Optional

from lib.browser import CONTROL, HEIGHT, SHIFT, START_SECONDS, Absent, Browser, Silent, Told
from lib.browser_room import Room

PROGRAMS = ("firefox-esr", "firefox")
HOST, PORT = "127.0.0.1", re.compile(rb"Marionette\tINFO\tListening on port (\d+)")
SETTINGS = (("marionette.port", 0), ("browser.shell.checkDefaultBrowser", False), ("datareporting.policy.dataSubmissionEnabled", False),
            ("app.update.enabled", False), ("general.smoothScroll", False))  # fmt: skip
# The keys by the numbers that WebDriver gives them.
KEYS = {"Enter": "\ue007", "Escape": "\ue00c", "Tab": "\ue004", "PageDown": "\ue00f", "End": "\ue010", "Home": "\ue011", "Backspace": "\ue003",
        "ArrowLeft": "\ue012", "ArrowUp": "\ue013", "ArrowRight": "\ue014", "ArrowDown": "\ue015"}  # fmt: skip
HELD = {CONTROL: "\ue009", SHIFT: "\ue008"}  # with a key, by the modifiers
ANSWERED = """const done = arguments[0];
Promise.resolve().then(() => (%s)).then(value => done({ value: value === undefined ? null : value }), why => done({ why: String(why) }));"""


def program() -> Optional[str]:
    """The Firefox that is installed; None if none is."""
    return next(filter(None, map(shutil.which, PROGRAMS)), None)


class Firefox(Browser):
    """A Firefox with one page."""

    def __init__(self, name: str, folder: pathlib.Path, seconds: float, is_plain: bool = False) -> None:  # not the other browser's, which starts another program
        self.seconds, self.number, self.kept = min(seconds, START_SECONDS), 0, b""
        self.requests: List[str] = []
        self.status: Optional[int] = None
        self.room, self.socket = Room(folder), socket.socket()
        (self.room.profile / "user.js").write_text("".join(f"user_pref({json.dumps(key)}, {json.dumps(value)});\n" for key, value in SETTINGS))
        words = [name, "--headless", "--marionette", "--no-remote", "--profile", str(self.room.profile), "about:blank"]
        with open(self.room.log, "wb") as log:
            try:
                self.firefox = subprocess.Popen(words, stdin=subprocess.DEVNULL, stdout=log, stderr=log, start_new_session=True, env=self.room.environment())
            except OSError as why:
                raise Absent(f"{name} can't be started: {why.strerror}") from why
        self.greet(seconds)

    def greet(self, seconds: float) -> None:
        """Asks the first requests. Raises Absent, and ends the browser, if it doesn't answer them."""
        try:
            self.connect(seconds)
            self.first_answer()
        except (Silent, OSError) as why:
            self.end()
            raise Absent(str(why)) from why
        except BaseException:
            self.end()
            raise
        self.seconds = seconds

    def connect(self, seconds: float) -> None:
        """Begins a session, in which a script may take `seconds`."""
        self.socket = socket.create_connection((HOST, self.port()), self.seconds)
        self.message(time.monotonic() + self.seconds)
        self.ask("WebDriver:NewSession", {"capabilities": {"alwaysMatch": {"acceptInsecureCerts": False, "timeouts": {"script": int(seconds * 1000)}}}})

    def port(self) -> int:
        """The port on which it listens, which it prints."""
        end = time.monotonic() + self.seconds
        while time.monotonic() < end:
            found = PORT.search(self.room.log.read_bytes())
            if found:
                return int(found[1])
            if self.has_ended():
                raise self.ending()
            time.sleep(0.05)
        raise Silent(f"it doesn't listen{self.last_words()}")

    def has_ended(self) -> bool:
        self.status = self.firefox.poll()
        return self.status is not None

    def end(self) -> None:
        self.socket.close()
        with contextlib.suppress(ProcessLookupError):  # if it has ended
            os.killpg(self.firefox.pid, signal.SIGKILL)
        self.firefox.wait()

    def open(self, address: str, width: int, is_in_front: bool = False) -> None:
        self.ask("WebDriver:SetWindowRect", {"width": width, "height": HEIGHT})
        self.ask("WebDriver:Navigate", {"url": address})

    def answer(self, script: str) -> Any:
        answer = self.ask("WebDriver:ExecuteAsyncScript", {"script": ANSWERED % script, "args": [], "newSandbox": False})["value"]
        if "why" in answer:
            raise Silent(answer["why"])
        return answer["value"]

    def key(self, name: str, modifiers: int = 0) -> None:
        pressed = [*(held for modifier, held in HELD.items() if modifiers & modifier), KEYS.get(name, name)]
        strokes = [{"type": "keyDown", "value": value} for value in pressed] + [{"type": "keyUp", "value": value} for value in reversed(pressed)]
        self.ask("WebDriver:PerformActions", {"actions": [{"type": "key", "id": "keys", "actions": strokes}]})

    def mouse(self, kind: str, x: float, y: float) -> None:
        move = {"type": "pointerMove", "x": round(x), "y": round(y), "duration": 0}
        press = {"type": {"mousePressed": "pointerDown", "mouseReleased": "pointerUp"}[kind], "button": 0}
        self.ask("WebDriver:PerformActions", {"actions": [{"type": "pointer", "id": "mouse", "parameters": {"pointerType": "mouse"}, "actions": [move, press]}]})

    # ---- the protocol: each message is its number of bytes, a colon, and a list in JSON

    def ask(self, command: str, words: Told) -> Told:
        """The answer to a command."""
        self.number += 1
        sent = json.dumps([0, self.number, command, words]).encode()
        end = time.monotonic() + self.seconds
        try:
            self.socket.sendall(b"%d:%s" % (len(sent), sent))
        except OSError as why:
            raise self.ending() from why
        while True:
            told = json.loads(self.message(end))
            if told[0] == 1 and told[1] == self.number:
                break
        if told[2]:
            raise Silent(f"{command}: {told[2].get('message')}")
        found: Told = told[3] or {}
        return found

    def message(self, end: float) -> bytes:
        """The next message, as long as the time isn't over."""
        while True:
            size, colon, rest = self.kept.partition(b":")
            if colon and len(rest) >= int(size):
                self.kept = rest[int(size):]
                return rest[:int(size)]
            self.socket.settimeout(max(0.1, end - time.monotonic()))
            try:
                got = self.socket.recv(1 << 16)
            except socket.timeout:
                raise Silent(f"it doesn't answer within {self.seconds} seconds{self.last_words()}") from None
            except OSError as why:
                raise self.ending() from why
            if not got:
                raise self.ending()
            self.kept += got
