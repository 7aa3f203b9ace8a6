"""What the commands of a debugger share: the run, what is looked at, and what stops it."""
from typing import Dict, List, Optional, Sequence, Tuple

from celltools.common.texts import number_of
from celltools.debugger.grammar import Condition, Grammar
from celltools.debugger.places import Places, Wrong
from celltools.debugger.stops import Break, ChannelBreak, What
from celltools.debugger.things import KINDS, Things
from celltools.run.machine_state import Actor, State, actor_of
from celltools.run.stepping import Run
from celltools.source.channels import NAMES, channel_named
from celltools.source.sites import Sites
from celltools.telling.states import Words
from celltools.telling.words import counted


class Session:
    """How a session stands."""

    def __init__(self, run: Run, sites: Sites, spe: Optional[int] = None) -> None:
        self.run, self.sites = run, sites
        self.places, self.words = Places(sites), Words(run, sites)
        self.grammar = Grammar(run, self.places)
        self.things = Things(self.grammar, run.trace, sites)
        self.spe = processor_of_step(run.next_head) or 0 if spe is None else spe  # that is looked at: at first that of the next step
        self.held: List[Actor] = []  # the actors that make no step while others take turns
        self.stops: Dict[int, What] = {}
        self.count = 0
        self.displays: Dict[int, Tuple[List[str], Optional[int]]] = {}  # what is shown at each stop, with its width
        self.shown_count = 0
        self.is_over = False

    def told_count(self) -> str:
        return f"after {counted(self.run.place, 'step')}; {counted(self.run.ahead, 'recorded step')} ahead"

    def told_place(self, state: State) -> List[str]:
        """Where the run stands: the processor that is looked at, and at an end all."""
        if not state.may:
            return list(self.words.where(state, self.spe))
        spe = state.spes[self.spe]
        remark = self.words.remark(spe, state)
        return [f"> {self.words.stands(spe)}", *([f"      {remark}"] if remark else [])]

    def stop_at(self, word: str, spes: Sequence[int], condition: Optional[Condition] = None, is_once: bool = False) -> What:
        """What stops a run where one of these processors comes to a place, or to an instruction of a channel."""
        is_label = any(self.places.label(word, spe) for spe in spes)
        if word in KINDS and not is_label:
            raise Wrong(f"`{word}` is not a place: `watch {word}` stops a run after it")
        channel = None if is_label else channel_of_place(word)
        if channel is None:
            return Break(word, self.places.addresses(word, spes), condition, is_once)
        return ChannelBreak(word, channel, spes, condition, is_once)


def channel_of_place(word: str) -> Optional[int]:
    """The channel that a word names by its name or its decimal number; None for any other word. An address is written with 0x."""
    if not (word.isascii() and word.isdecimal()):
        return channel_named(word)
    number = number_of(word)
    if number not in NAMES:
        raise Wrong(f"`{word}` is not a channel: type one of {', '.join(map(str, NAMES))}, or an address that begins with 0x")
    return number


def processor_of_step(step: Optional[str]) -> Optional[int]:
    """The processor that makes a step, or whose flow controller does; None for the host's and where there is no step."""
    return actor_of(step)[1] if step else None
