"""A debugger: it reads commands, makes steps of one run, and prints the state of the run."""
import re
from typing import Callable, Iterable, List, Sequence

from celltools.common.texts import number_of, quoted
from celltools.debugger.files import PICTURE, RECORD, target_of, write_file
from celltools.debugger.going import Going
from celltools.debugger.help import COMMANDS, SHORT, help_lines
from celltools.debugger.looking import Looking
from celltools.debugger.places import Wrong, actor_of_word
from celltools.debugger.stops import Watch, What
from celltools.picture.page import page_of
from celltools.picture.run import Run as Picture
from celltools.run.snapshots import Snapshot
from celltools.telling.words import counted

COMMENT = re.compile(r"(?:^|\s)#")  # how one begins
MOVES = {"step", "next", "finish", "run", "back", "reverse", "last", "other"}  # commands behind which `display` shows


class Debugger(Going, Looking):
    """One session."""

    # ---- talking

    def prompt(self) -> str:
        return f"{self.run.place}> "

    def obey(self, line: str) -> List[str]:
        """Obeys a line, and answers what is to be printed; Wrong or Refused where it can't."""
        words = COMMENT.split(line, maxsplit=1)[0].split()
        if not words:
            return []
        name = command_named(words[0])
        obeyed: Callable[[Sequence[str]], Iterable[str]] = getattr(self, f"do_{name}")
        return [*obeyed(words[1:]), *(self.told_displays() if name in MOVES else [])]

    def do_help(self, words: Sequence[str]) -> List[str]:
        return help_lines([command_named(word) for word in words])

    def do_quit(self, words: Sequence[str]) -> List[str]:
        self.is_over = True
        return []

    # ---- stops

    def keep_stop(self, stop: What) -> List[str]:
        self.count += 1
        self.stops[self.count] = stop
        return [f"{self.count}: {stop}"]

    def do_break(self, words: Sequence[str], is_once: bool = False) -> List[str]:
        if not words:
            return self.told_stops()
        words, condition = self.grammar.conditional(words, self.spe)
        actor = actor_of_word(words[0], self.run.spes) if len(words) == 2 else None
        if not words or len(words) > 1 and (not actor or actor[0] != "x"):
            raise Wrong("usage: break PLACE, or break x1 PLACE for SPU 1 only; PLACE is a label, FILE:LINE, an address or a channel")
        spes = [actor[1]] if actor and actor[1] is not None else range(self.run.spes)
        return self.keep_stop(self.stop_at(words[-1], spes, condition, is_once))

    def do_tbreak(self, words: Sequence[str]) -> List[str]:
        return self.do_break(words, is_once=True)

    def do_watch(self, words: Sequence[str]) -> List[str]:
        if not words:
            return self.told_stops()
        words, condition = self.grammar.conditional(words, self.spe)
        return self.keep_stop(Watch(self.things.thing(words, self.spe), condition))

    def told_stops(self) -> List[str]:
        return [f"{number}: {stop}" for number, stop in self.stops.items()] or ["no breakpoints or watchpoints: set one with `break PLACE` or `watch THING`"]

    def do_delete(self, words: Sequence[str]) -> List[str]:
        if words == ["all"]:
            self.stops.clear()
            return ["all breakpoints and watchpoints deleted"]
        number = number_of(words[0]) if len(words) == 1 else None
        if number is None or number not in self.stops:
            raise Wrong("usage: delete N, or delete all; `break` lists the numbers")
        return [f"deleted {number}: {self.stops.pop(number)}"]

    # ---- files

    def do_record(self, words: Sequence[str]) -> List[str]:
        text = self.run.record()
        if not words:
            return text.splitlines()
        name = target_of(words, RECORD, self.run.origin)
        write_file(name, text)
        self.run.keep_steps(name)
        return [f"{counted(self.run.place, 'step')} written to {name}; check them with `cell check {quoted(self.run.machine)} {quoted(name)}`"]

    def do_picture(self, words: Sequence[str]) -> List[str]:
        if not words:
            raise Wrong("usage: picture FILE, such as picture here.html")
        name = target_of(words, PICTURE, self.run.origin)
        record = Snapshot(str(self.run.folder / "pictured"), f"{counted(self.run.place, 'step')} of a session")
        with open(record, "w") as file:
            file.write(self.run.record())
        write_file(name, "".join(page_of(Picture(self.run.machine, record))))
        return [f"picture of {counted(self.run.place, 'step')} written to {name}; open it in a browser"]


def either(names: Sequence[str]) -> str:
    """Names one of which is to be typed."""
    typed = [f"`{name}`" for name in names]
    return ", ".join(typed[:-1]) + f" or {typed[-1]}"


def command_named(word: str) -> str:
    """The command that a word names: whole, by its short name, or by how it begins."""
    names = [SHORT[word]] if word in SHORT else [word] if word in COMMANDS else [name for name in COMMANDS if name.startswith(word)]
    if len(names) != 1:
        raise Wrong(f"ambiguous command `{word}`: type {either(names)}" if names else f"unknown command `{word}`: `help` lists the commands")
    return names[0]
