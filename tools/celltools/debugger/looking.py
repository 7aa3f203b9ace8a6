"""What a debugger shows: where a run stands, values, flow controllers, and programs."""
from typing import Dict, Iterable, Iterator, List, Optional, Sequence

from celltools.common.texts import lines_of, number_of, shown
from celltools.debugger.grammar import with_width
from celltools.debugger.places import PLAIN_SIZE, STORE, Wrong, processor_of
from celltools.debugger.session import Session
from celltools.debugger.stops import Break
from celltools.debugger.turns import names_of
from celltools.run.effects import Span
from celltools.run.machine_state import Spe
from celltools.source.sites import Site
from celltools.telling.states import dump, grouped
from celltools.telling.words import counted

LISTED = 5  # lines before and behind
MOST_PRINTED = 256  # bytes of a label
WORDS = 8  # of a disassembly
MOST_WORDS = 256


class Looking(Session):
    """The commands that only look."""

    def do_where(self, words: Sequence[str]) -> List[str]:
        return [self.told_count(), *self.words.where(self.run.state(), self.spe)]

    def do_actors(self, words: Sequence[str]) -> Iterable[str]:
        held = [f"held: {names_of(self.held)}"] if self.held else []
        return [*self.words.actors(self.run.state()), *held]

    def do_spe(self, words: Sequence[str]) -> List[str]:
        if len(words) > 1:
            raise Wrong("usage: spe N, with the number of an SPU")
        if words:
            self.spe = processor_of(words[0], self.run.spes)
        return self.told_place(self.run.state())

    def do_print(self, words: Sequence[str]) -> List[str]:
        words, width = with_width(words)
        if not words:
            return self.told_registers(self.run.state().spes[self.spe], width)
        return [line for part in self.grammar.split(words) for line in self.told_value(part, width)]

    def told_value(self, words: Sequence[str], width: Optional[int] = None) -> List[str]:
        """A register or a word of it, the PC, a label's bytes or a range."""
        owner, rest = self.grammar.owned(words)
        spe = self.run.state().spes[self.spe if owner is None else owner]
        whose = "" if owner is None else f" of SPU {owner}"
        register = self.grammar.register(rest[0], spe.number) if len(rest) == 1 else None
        if register:
            return [f"{register.name}{whose} = {shown_register(register.read(self.run, self.run.place, spe.number), register.part, width)}"]
        if rest == ["pc"]:
            return [f"pc{whose} = 0x{spe.pc:05x}"]
        if len(words) > 1:
            return self.told_range(words, width)
        label = self.places.label(words[0], self.spe)
        if not label:
            raise Wrong(f"`{words[0]}` is not a label of SPU {self.spe}, a register ($0 to $127) or `pc`: `x` prints the bytes at an address")
        return self.told_label(words[0], *label, width)

    def told_label(self, name: str, at: int, size: int, width: Optional[int]) -> List[str]:
        """The bytes of a label, or the first of many."""
        if at >= STORE:
            return [f"`{name}` is 0x{at:x}, the end of the local store: there are no bytes to print"]
        span = Span(self.spe, at, min(size or PLAIN_SIZE, MOST_PRINTED, STORE - at))
        return [*self.dump(span, width), *([f"(the first {MOST_PRINTED} of {size} bytes: `x {name}` prints them all)"] if size > MOST_PRINTED else [])]

    def told_registers(self, spe: Spe, width: Optional[int]) -> List[str]:
        """All registers of a processor that aren't zero."""
        lines = [f"${number} = {grouped(bytes.fromhex(digits), width or 4)}" for number, digits in spe.registers.items()]
        return [f"pc = 0x{spe.pc:05x}", *lines]

    def do_x(self, words: Sequence[str]) -> List[str]:
        return self.told_range(*with_width(words))

    def told_range(self, words: Sequence[str], width: Optional[int]) -> List[str]:
        return self.dump(self.grammar.span(words, self.spe), width)

    def dump(self, span: Span, width: Optional[int]) -> List[str]:
        return list(dump(span, self.run.bytes_of(span), self.sites.names, width))

    # ---- what is shown at each stop

    def do_display(self, words: Sequence[str]) -> List[str]:
        things, width = with_width(words)
        if not things:
            return self.told_displays() or ["no displays: add one with `display VALUE`"]
        parts = self.grammar.split(things)
        told = [self.told_value(part, width) for part in parts]  # what is wrong is said now
        for part in parts:
            self.shown_count += 1
            self.displays[self.shown_count] = part, width
        return [f"{number}: {line}" for number, lines in zip(range(self.shown_count - len(parts) + 1, self.shown_count + 1), told) for line in lines]

    def told_displays(self) -> List[str]:
        """What is shown at each stop, as it stands now."""
        return [f"{number}: {line}" for number, (words, width) in self.displays.items() for line in self.told_display(words, width)]

    def told_display(self, words: Sequence[str], width: Optional[int]) -> List[str]:
        """One of these, or why it has no meaning now."""
        try:
            return self.told_value(words, width)
        except Wrong as why:
            return [str(why)]

    def do_undisplay(self, words: Sequence[str]) -> List[str]:
        if words == ["all"]:
            self.displays.clear()
            return ["all displays deleted"]
        number = number_of(words[0]) if len(words) == 1 else None
        if number is None or number not in self.displays:
            raise Wrong("usage: undisplay N, or undisplay all; `display` lists the numbers")
        return [f"deleted display {number}: {' '.join(self.displays.pop(number)[0])}"]

    # ---- flow controllers

    def do_queue(self, words: Sequence[str]) -> Iterable[str]:
        return self.words.queue(self.spe_in(words), self.run.state())

    def do_tags(self, words: Sequence[str]) -> Iterable[str]:
        return self.words.tags(self.spe_in(words), self.run.state())

    def do_signals(self, words: Sequence[str]) -> Iterable[str]:
        return self.words.signals(self.spe_in(words), self.run.state())

    def spe_in(self, words: Sequence[str]) -> int:
        """The processor that words name, or else the one that is looked at."""
        if len(words) > 1:
            raise Wrong("type the number of one SPU, or none for the current SPU")
        return processor_of(words[0], self.run.spes) if words else self.spe

    # ---- programs

    def do_list(self, words: Sequence[str]) -> Iterable[str]:
        if len(words) > 1:
            raise Wrong("usage: list, or list PLACE; PLACE is a label, FILE:LINE or an address")
        spe = self.run.state().spes[self.spe]
        at = self.places.addresses(words[0], [self.spe])[self.spe] if words else spe.pc
        if not words and spe.status.startswith(("stopped", "halted")):
            at -= 4  # its last instruction, behind which it stands
        site = self.sites.of_processor[self.spe].get(at)
        return self.listing(site) if site and site.is_source else self.dis(max(0, at - 4 * LISTED), WORDS + LISTED)

    def listing(self, middle: Site) -> Iterator[str]:
        """The lines of a source around one, with their addresses."""
        pc = self.run.state().spes[self.spe].pc
        at: Dict[int, int] = {}
        for address, site in self.sites.of_processor[self.spe].items():
            if site.file == middle.file:
                at[site.number] = min(address, at.get(site.number, STORE))
        here = self.sites.of_processor[self.spe].get(pc)
        texts = lines_of(str(middle.file))
        for number in range(max(1, middle.number - LISTED), min(len(texts), middle.number + LISTED) + 1):
            mark = ">" if here and (here.file, here.number) == (middle.file, number) else "*" if self.is_break(at.get(number)) else " "
            place = f"0x{at[number]:05x}" if number in at else ""
            yield f"{mark} {number:4} {place:7} {shown(texts[number - 1]).expandtabs()}".rstrip()

    def is_break(self, at: Optional[int]) -> bool:
        """Whether the processor that is looked at stops at an address."""
        return at is not None and any(isinstance(stop, Break) and stop.places.get(self.spe) == at for stop in self.stops.values())

    def do_dis(self, words: Sequence[str]) -> List[str]:
        count = number_of(words[1]) if len(words) == 2 else WORDS
        if len(words) > 2 or not count or count > MOST_WORDS:
            raise Wrong(f"usage: dis PLACE N, with N up to {MOST_WORDS} words")
        at = self.places.addresses(words[0], [self.spe])[self.spe] if words else self.run.state().spes[self.spe].pc
        return self.dis(at, count)

    def dis(self, at: int, count: int) -> List[str]:
        """The words that stand in the store, as instructions."""
        data = self.run.bytes_of(Span(self.spe, at, min(4 * count, STORE - at)))
        places = [(at + k, int.from_bytes(data[k:k + 4], "big")) for k in range(0, len(data), 4)]
        self.words.words.learn(places)
        pc = self.run.state().spes[self.spe].pc
        return [f"{'>' if address == pc else ' '} 0x{address:05x} {word:08x} {self.words.words.text(address, word)}" for address, word in places]


def told_number(number: int) -> str:
    """A word as an unsigned number, and as a signed one where they differ."""
    return str(number) if number < 1 << 31 else f"{number} or {number - (1 << 32)}"


def shown_register(data: bytes, part: Optional[int], width: Optional[int]) -> str:
    """A register, or a word of it, in words or in parts of another width, with what it is as a number."""
    if width is None:
        where = "" if part is not None else "word 0: "
        return f"{grouped(data, 4)} ({where}{told_number(int.from_bytes(data[:4], 'big'))})"
    if width > len(data):
        raise Wrong(f"a word of a register has {counted(len(data), 'byte')}: type a smaller width after `as`")
    numbers = [int.from_bytes(data[k:k + width], "big", signed=True) for k in range(0, len(data), width)]
    return f"{grouped(data, width)} (signed: {' '.join(map(str, numbers))})"
