"""How a debugger goes on and back: steps, runs to what stops them, and goes back to who did something last."""
from typing import Iterator, List, Optional, Sequence, Tuple

from celltools.common.texts import number_of
from celltools.debugger.calls import open_call
from celltools.debugger.places import MOST_STEPS, Wrong, actor_of_word, count_of
from celltools.debugger.session import Session, processor_of_step
from celltools.debugger.stops import Behind, Stop, Watch, What, found_stops, stop_among
from celltools.debugger.things import KINDS, Matter, Target, last_before
from celltools.debugger.turns import GREATEST_CHUNK, LEAST_CHUNK, made_by, may_step, name_of, names_of
from celltools.run.machine_state import Actor, State, actor_of
from celltools.source.sites import sets_link
from celltools.telling.states import ENDS
from celltools.telling.words import counted

CHUNKS = (1000, 10_000, 100_000)  # steps that are made at a time, the last from there on
STEP_LETTERS = {"x", "p", "e", "r", "a"}  # that begin the line of a step, beside the host's


def discarded(ahead: int) -> str:
    """Says that recorded steps were discarded."""
    return f"discarded {counted(ahead, 'recorded step')} (`other` restores {'it' if ahead == 1 else 'them'})"


def turns(start: int, count: int, actors: int) -> Iterator[int]:
    """The numbers of turns: the actors take them one after the other, and the choice is the number of the turn."""
    return (turn % actors + actors * turn for turn in range(start, start + count))


class Going(Session):
    """The commands that move a session's place in its run."""

    # ---- going on

    def do_step(self, words: Sequence[str]) -> List[str]:
        actor = actor_of_word(words[0], self.run.spes) if words else None
        if actor:
            return self.step_actor(actor, count_of(words[1:]))
        if words and words[0] in STEP_LETTERS:
            return self.step_line(" ".join(words))
        if len(words) > 1 or words and number_of(words[0]) is None:
            raise Wrong(f"`{' '.join(words)}` is not a step: type a number of steps, an actor (x0, m0 or h) and optionally a number, or a line that `actors` prints")
        return self.went([], count_of(words))

    def step_actor(self, actor: Actor, count: int) -> List[str]:
        """Makes steps of one actor, as long as it has one."""
        start, left = self.run.place, len(self.run.left)
        if actor[0] == "x" and actor[1] is not None:
            self.spe = actor[1]
        for size in self.chunks(count):
            if not self.take_own(actor, size):
                break
        made = self.run.place - start
        state = self.run.state()
        said = [self.no_step(actor, state)] if made < count and (state.may or not made) else []
        return [*self.told_left(left), *(self.told_move(start, None, False) if made else []), *said]

    def told_left(self, left: int) -> List[str]:
        """Says that recorded steps were discarded, if they were: `left` is how often some had been before."""
        if len(self.run.left) == left:
            return []
        return [discarded(self.run.left[-1].ahead)]

    def take_own(self, actor: Actor, count: int) -> bool:
        """Makes up to so many steps of one actor, and says whether it had as many."""
        number = self.run.state().actors().index(actor)
        lines, state = self.run.make([number] * count)
        own = next((k for k, line in enumerate(lines) if actor_of(line.partition(" | ")[0]) != actor), len(lines))
        self.run.take(lines[:own], state if own == len(lines) else None)
        return own == count

    def chunks(self, count: int) -> Iterator[int]:
        """So many steps in parts, the first ones smaller: a run that stops early is soon told."""
        sizes, size = iter(CHUNKS), 0
        while count:
            size = min(next(sizes, size), count)
            yield size
            count -= size

    def step_line(self, step: str) -> List[str]:
        """Makes the one step that a line of a record names."""
        state, start = self.run.state(), self.run.place
        number = state.choice(step)
        if number is None:
            raise Wrong(f"step `{step}` is not possible now: `actors` lists the steps that are")
        left = len(self.run.left)
        self.run.take(*self.run.make([number]))
        return [*self.told_left(left), *self.told_move(start, None, False)]

    def no_step(self, actor: Actor, state: State) -> str:
        """Why an actor makes no step."""
        kind, number = actor
        if state.end == "Budget":
            return ENDS["Budget"]
        if number is None:
            return f"no possible step of the host: {next(self.words.host(state)).strip()}" if state.host[1] else "no possible step of the host: the machine file has no host actions"
        if kind == "m":
            return f"no possible step of the MFC of SPU {number}: `queue {number}` lists its outstanding commands"
        spe = state.spes[number]
        return f"{self.words.stands(spe)}: {self.words.remark(spe, state) or 'it makes no more steps'}"

    def do_next(self, words: Sequence[str]) -> List[str]:
        if words:
            raise Wrong("`next` takes no arguments: it goes to the next instruction of the current SPU")
        spe = self.run.state().spes[self.spe]
        if not spe.runs:
            return [f"{self.words.stands(spe)}: it makes no more steps; `spe N` selects another SPU"]
        behind = Behind(self.spe, spe.pc, sets_link(spe.word or 0))
        return self.went([behind, *self.stops.values()], MOST_STEPS)

    def do_finish(self, words: Sequence[str]) -> List[str]:
        if words:
            raise Wrong("`finish` takes no arguments: it runs until the current SPU returns from its routine")
        call = open_call(self.run, self.sites, self.spe)
        if call is None:
            raise Wrong(f"SPU {self.spe} is not in a routine that this run called with brsl, brasl or bisl: use `run`")
        return self.went([Behind(self.spe, call, True), *self.stops.values()], MOST_STEPS)

    def do_run(self, words: Sequence[str]) -> List[str]:
        words, condition = self.grammar.conditional(words, self.spe)
        actors, places = self.actors_and_places(words)
        if len(places) > 1 or "until" in words and not places or condition and not places:
            raise Wrong("usage: run, run PLACE, or run x1 m1 until PLACE for steps of these actors only; PLACE is a label, FILE:LINE, an address or a channel")
        once = [self.stop_at(places[0], range(self.run.spes), condition)] if places else []
        return self.went([*self.stops.values(), *once], MOST_STEPS, actors)

    def actors_and_places(self, words: Sequence[str]) -> Tuple[List[Actor], List[str]]:
        """The actors at the front of the words of `run`, and the others; a label goes before an actor of its name, unless `until` follows."""
        at = list(words).index("until") if "until" in words else None
        if at is not None:
            return self.actors_in(words[:at]), list(words[at + 1:])
        count = next((k for k, word in enumerate(words) if self.is_place(word) or not actor_of_word(word, self.run.spes)), len(words))
        return self.actors_in(words[:count]), list(words[count:])

    def is_place(self, word: str) -> bool:
        return any(self.places.label(word, spe) for spe in range(self.run.spes))

    def actors_in(self, words: Sequence[str]) -> List[Actor]:
        """The actors that words name."""
        found = [(word, actor_of_word(word, self.run.spes)) for word in words]
        for word, actor in found:
            if actor is None:
                raise Wrong(f"`{word}` is not an actor: type x0 (SPU 0), m0 (its MFC) or h (the host)")
        return [actor for _, actor in found if actor]

    def went(self, whats: Sequence[What], most: int, actors: Sequence[Actor] = ()) -> List[str]:
        """Goes on by up to so many steps, until one of these stops it: all actors take turns, or only those that are named, or else those that aren't held.
        Answers what is told of it."""
        start, left = self.run.place, len(self.run.left)
        if not actors and not self.held:
            return self.told_move(start, *self.advance(whats, most))
        alone = actors or self.not_held()
        self.spe = next((number for _, number in actors if number is not None), self.spe)
        stop, is_at_end = self.advance_alone(alone, whats, most)
        return [*self.told_left(left), *self.told_move(start, stop, is_at_end), *([] if stop else self.told_blocked(actors))]

    def not_held(self) -> List[Actor]:
        return [actor for actor in self.run.state().actors() if actor not in self.held]

    def told_blocked(self, actors: Sequence[Actor]) -> List[str]:
        """Says that none of the actors has a step that were to go on alone, if so."""
        state = self.run.state()
        if not state.may or may_step(state, actors or self.not_held()):
            return []
        if actors:
            return [f"no possible step of {names_of(actors)} now: `actors` lists the actors that have one"]
        return [f"every actor that has a possible step is held ({names_of(may_step(state, self.held))}): `release` frees them"]

    def advance(self, whats: Sequence[What], most: int) -> Tuple[Optional[Stop], bool]:
        """Makes up to so many steps, until one of these stops it: those that lie ahead, or else all actors take turns. Answers the stop, and whether it came
        to the end of what lay ahead."""
        if self.run.ahead:
            return self.advance_ahead(whats, min(most, self.run.ahead))
        for size in self.chunks(most):
            start = self.run.place
            lines, state = self.run.make(list(turns(start, size, 2 * self.run.spes + 1)))
            self.run.take(lines, state)
            stop = self.stop_since(start, whats)
            if stop or len(lines) < size:
                return stop, False
        return None, False

    def advance_alone(self, actors: Sequence[Actor], whats: Sequence[What], most: int) -> Tuple[Optional[Stop], bool]:
        """The same of some actors: what lies ahead is gone on by up to the first step of another."""
        ahead = self.run.heads[self.run.place:][:most]
        own = next((k for k, head in enumerate(ahead) if actor_of(head) not in actors), len(ahead))
        stop, is_at_end = self.advance_ahead(whats, own) if own else (None, False)
        size, most = LEAST_CHUNK, most - own
        while most and not stop and not is_at_end:
            start = self.run.place
            made, is_whole = made_by(self.run, actors, min(size, most))
            if not made:
                break
            stop, most = self.stop_since(start, whats), most - made
            size = min(2 * size, GREATEST_CHUNK) if is_whole else LEAST_CHUNK
        return stop, is_at_end

    def stop_since(self, start: int, whats: Sequence[What]) -> Optional[Stop]:
        """What stops the run in the steps that were just made from a place on; the steps after the stop are forgotten."""
        try:
            stop = self.first_stop(whats, start, self.run.place)
        except BaseException:  # a condition that can't be told, or an interrupt: these steps weren't looked at to their end
            self.run.drop(start)
            raise
        if stop:
            self.run.drop(stop.behind)
        return stop

    def advance_ahead(self, whats: Sequence[What], count: int) -> Tuple[Optional[Stop], bool]:
        """Goes on by so many steps that lie ahead, until one of these stops it."""
        end = self.run.place + count
        stop = self.first_stop(whats, self.run.place, end)
        self.run.place = stop.behind if stop else end
        return stop, not stop and not self.run.ahead

    def first_stop(self, whats: Sequence[What], start: int, end: int) -> Optional[Stop]:
        return stop_among(found_stops(whats, self.run, start, end), self.run, self.spe)

    def told_move(self, start: int, stop: Optional[Stop], is_at_end: bool) -> List[str]:
        """What is told of the steps that were made."""
        place, state = self.run.place, self.run.state()
        self.look_on(state)
        if place == start:
            return [ENDS.get(state.end, "no step was made"), *self.words.where(state, self.spe)]
        lines = [f"{counted(place - start, 'step')}, up to step {place - 1}"] if place > start + 1 else []
        if isinstance(stop and stop.what, Watch) or place == start + 1:
            lines += self.words.step(place - 1)
        if place == start + 1 and start in self.run.states:
            lines += self.words.changed(self.run.state(start), state)
        if stop:
            lines += self.told_stop(stop)
        if is_at_end and state.may:
            lines.append("end of the recorded steps: from here on the actors take turns")
        if not state.may:
            lines.append(ENDS[state.end])
        return [*lines, *self.told_place(state)]

    def look_on(self, state: State) -> None:
        """Where the processor that is looked at runs no more, looks at the one that made the last step, or whose flow controller did."""
        last = processor_of_step(self.run.heads[self.run.place - 1]) if self.run.place else None
        if last is not None and state.spes[last].runs and not state.spes[self.spe].runs:
            self.spe = last

    def told_stop(self, stop: Stop) -> List[str]:
        """What stopped a run."""
        thing = stop.what.thing if isinstance(stop.what, Watch) else None
        if stop.spe is not None and (thing is None or isinstance(thing, (Matter, Target))):
            self.spe = stop.spe
        number = next((number for number, what in self.stops.items() if what is stop.what), None)
        lines = [] if number is None else [f"stopped by {number}: {stop.what}"]
        if stop.what.is_once and number is not None:
            del self.stops[number]
        return lines + (thing.told(self.run, self.run.place - 1) if thing else [])

    # ---- who takes turns

    def do_hold(self, words: Sequence[str]) -> List[str]:
        """Holds actors, or lists those that are held."""
        self.held += [actor for actor in self.actors_in(words) if actor not in self.held]
        return self.told_held() or ["no actors are held: `hold x1` holds one"]

    def told_held(self) -> List[str]:
        """Lists the held actors, if there are some."""
        return [f"held: {names_of(self.held)} (no steps while the others take turns)"] if self.held else []

    def do_release(self, words: Sequence[str]) -> List[str]:
        if not words:
            raise Wrong("usage: release ACTOR.. or release all; `hold` lists the held actors")
        released = list(self.held) if list(words) == ["all"] else list(dict.fromkeys(self.actors_in(words)))
        for actor in released:
            if actor not in self.held:
                raise Wrong(f"{name_of(actor)} is not held: `hold` lists the held actors")
        self.held = [actor for actor in self.held if actor not in released]
        return [f"released: {names_of(released)}", *self.told_held()] if released else self.do_hold([])

    # ---- going back

    def do_back(self, words: Sequence[str]) -> List[str]:
        if words[:1] == ["to"]:
            place = number_of(words[1]) if len(words) == 2 else None
            if place is None or place > self.run.place:
                raise Wrong(f"usage: back to N, with N from 0 to {self.run.place}")
        else:
            place = max(0, self.run.place - count_of(words))
        self.run.place = place
        return self.told_back()

    def told_back(self) -> List[str]:
        return [self.told_count(), *self.told_place(self.run.state())]

    def do_reverse(self, words: Sequence[str]) -> List[str]:
        if words:
            raise Wrong("`reverse` takes no arguments: it goes back to the last hit of a breakpoint or watchpoint")
        if not self.stops:
            raise Wrong("no breakpoints or watchpoints: set one with `break PLACE` or `watch THING`, and `reverse` goes back to its last hit")
        found = (stop for stop in reversed(found_stops(self.stops.values(), self.run, 0, self.run.place)) if stop.behind < self.run.place)
        stop = stop_among(found, self.run, self.spe)
        if stop is None:
            return ["no breakpoint or watchpoint is hit before this step", *self.told_back()]
        self.run.place = stop.behind
        step = list(self.words.step(stop.behind - 1)) if isinstance(stop.what, Watch) else []
        return [*step, *self.told_stop(stop), *self.told_back()]

    def do_last(self, words: Sequence[str]) -> List[str]:
        if not words:
            raise Wrong(f"usage: last THING; THING is a range, a register or one of {', '.join(KINDS)} (see `help last`)")
        thing = self.things.thing(words, self.spe)
        place = last_before(thing, self.run.place)
        if place is None:
            return [f"no step before step {self.run.place} {thing.deed}: the session stays where it is"]
        self.run.place = place
        spe = self.run.trace.steps[place].spe
        self.spe = self.spe if spe is None else spe
        return [*self.words.step(place), *self.words.calls(place), *thing.told(self.run, place), *self.told_back()]

    def do_cut(self, words: Sequence[str]) -> List[str]:
        if words or not self.run.ahead:
            raise Wrong("`cut` takes no arguments" if words else "there are no recorded steps ahead: `cut` has nothing to discard")
        ahead = self.run.ahead
        self.run.cut()
        return [f"{discarded(ahead)}: from here on the actors take turns"]

    def do_other(self, words: Sequence[str]) -> List[str]:
        many = len(self.run.left)
        if not many:
            raise Wrong("no recorded steps were discarded: `other` has nothing to restore")
        number = many if not words else number_of(words[0]) if len(words) == 1 else None
        if not number or number > many:
            raise Wrong(f"usage: other, or other N with N from 1 to {many}; `left` lists the discarded steps")
        self.run.take_way(number - 1)
        return self.told_back()

    def do_left(self, words: Sequence[str]) -> List[str]:
        if words:
            raise Wrong("`left` takes no arguments: it lists the discarded steps")
        told = [f"{number}: {counted(way.ahead, 'step')} discarded after {counted(way.place, 'step')}, the first `{way.next_head}`"
                for number, way in enumerate(self.run.left, 1)]
        return told or ["no recorded steps were discarded"]
