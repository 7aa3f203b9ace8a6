"""The page: its facts, and the steps in compressed blocks, which the page's script opens where they come into view."""
import base64
import html
import json
import os
import pathlib
import re
import zlib
from typing import Dict, Iterable, Iterator, List, Optional, Sequence, Tuple

from celltools.common.texts import shown
from celltools.order.graph import NO_CHAIN, RULES, Order
from celltools.picture.bars import Arrows, atomics, bars, slots
from celltools.picture.ending import Level
from celltools.picture.ranges import lane, overview, touched
from celltools.picture.run import Run
from celltools.picture.story import BEHIND, other_words, race_pairs, race_steps, race_words
from celltools.run.effects import shared_bytes
from celltools.source.channels import NAMES, channel_of

HERE = pathlib.Path(__file__).resolve().parent
SCRIPTS = ("data", "order", "layout", "columns", "rows", "lines", "labels", "arrows", "drawing", "memory", "side", "find", "actions")
BLOCK = 2048            # steps in a block
MOST_ROWS = 100000      # steps that have a row of their own at the beginning
ALL_ARROWS = 20000      # steps up to which all arrows are kept; of more, those between rows
MOST_EDGES = 400000     # of the order that the page has with it
SourceLine = Tuple[object, int, str, Optional[int]]  # its file, number and text, and the channel of its instruction
Code = List[Dict[int, int]]  # of each processor by address the number of such a line
FETCHED = re.compile(r"^x (\d+) \| fetch \d+ (\d+) ", re.M)


def packed(text: str) -> str:
    """A text as the page has it: deflated, in base 64."""
    return base64.b64encode(zlib.compress(text.encode(), 6)).decode()


def jsoned(value: object) -> str:
    return json.dumps(value, separators=(",", ":"), ensure_ascii=False)


def readable(value: object) -> object:
    """A value of which each text is as it is shown."""
    if isinstance(value, str):
        return shown(value)
    if isinstance(value, dict):
        return {key: readable(part) for key, part in value.items()}
    return [readable(part) for part in value] if isinstance(value, (list, tuple)) else value


def nearest(keys: List[int], focus: int) -> List[int]:
    """As many rows as the page can hold, those nearest to what it opens at."""
    return keys if len(keys) <= MOST_ROWS else sorted(sorted(keys, key=lambda place: abs(place - focus))[:MOST_ROWS])


def focus_of(run: Run) -> int:
    """The step at which the page opens: a race; the last step of the processor that halted, has a fault, or waits in a run that is stuck; the end of another
    run that didn't end well; or the beginning."""
    if run.pair:
        return run.pair[1]
    return 0 if run.ending.level is Level.GOOD else max(0, run.count - 1 if run.ending.last is None else run.ending.last)


def sites_of(run: Run) -> Tuple[List[SourceLine], Code]:
    """The lines of the sources that were executed, as file, number, text and channel, and of each processor and address which of them."""
    lines: List[SourceLine] = []
    numbers: Dict[SourceLine, int] = {}
    code: Code = [{} for _ in range(run.spes)]
    for spe, address in sorted((int(spe), int(address)) for spe, address in set(FETCHED.findall(run.text))):
        site = run.sites.at(spe, address)
        line = (site.file, site.number, site.text, channel_of(site.word))
        if line not in numbers:
            numbers[line] = len(lines)
            lines.append(line)
        code[spe][address] = numbers[line]
    return lines, code


def calls_of(run: Run, keys: Iterable[int], code: Code) -> Dict[int, int]:
    """Of the rows that stand in a routine, the line that called it."""
    called = run.teller.called
    found: Dict[int, int] = {}
    for place in keys:
        if place in called:
            caller = run.trace.steps[called[place]]
            found[place] = code[caller.processor][caller.fetched.at]
    return found


def graph_of(order: Order) -> Optional[Dict[str, object]]:
    """The order as the page has it: of each step that has edges its place, and (node, rule) pairs; the sets; and of the steps that are named the chain, if
    they have one. None where it is too long."""
    if sum(map(len, order.edges.values())) + sum(map(len, order.sets)) > MOST_EDGES:
        return None
    numbers = {rule: number for number, rule in enumerate(RULES)}
    edges = [[place, *(part for node, rule in found for part in (node, numbers[rule]))] for place, found in sorted(order.edges.items())]
    named = {node for found in order.edges.values() for node, _ in found} | {node for found in order.sets for node in found} | set(order.edges)
    chains = [[node, order.chains[node]] for node in sorted(named) if node >= 0 and order.chains[node] != NO_CHAIN]
    return {"edges": edges, "sets": order.sets, "chains": chains}


def story_of(run: Run) -> Optional[Dict[str, object]]:
    """What the page says of a race, and which steps and pairs it shows of it."""
    race = run.race
    if not race:
        return None
    pairs = race_pairs(race)
    shared = [[-1 if span.spe is None else span.spe, span.at, span.at + span.size, way, other] for way, other, span in shared_bytes(race.one, race.two)]
    return {"first": race.first, "second": race.second, "pairs": [[i, j, RULES.index(rule)] for i, j, rule in pairs], "steps": race_steps(race, pairs),
            "shared": shared, "words": race_words(run, race), "behind": BEHIND, "others": other_words(run, race)}


def tables_of(run: Run, keys: List[int], code: Code) -> Dict[str, object]:
    """What grows with the record, apart from its steps."""
    commands, atomic = bars(run), atomics(run, keys)
    rows, arrows = set(keys), Arrows(run).found
    if run.count > ALL_ARROWS:
        arrows = [arrow for arrow in arrows if arrow[0] in rows and arrow[1] in rows]
    lanes = [lane(run.trace.lines[place], run.spes) for place in keys]
    return {"slots": slots(commands, atomic, run.count), "keys": keys, "lanes": lanes, "bars": commands, "atomics": atomic,
            "arrows": [[i, j, RULES.index(rule)] for i, j, rule in dict.fromkeys(arrows)], "graph": graph_of(run.order),
            "calls": calls_of(run, keys, code), "hosts": run.teller.hosts, "labels": run.sites.labels,
            "places": run.whole.places if run.whole else None}


def facts_of(run: Run, sources: Sequence[SourceLine], code: Code) -> Dict[str, object]:
    """The facts that the page begins with."""
    return {"machine": str(run.machine), "record": str(run.record), "verdict": run.verdict, "end": run.end.word, "count": run.count, "spes": run.spes,
            "script": [text for _, text in run.sites.script], "sources": sources, "code": code, "block": BLOCK, "rules": RULES,
            "states": [[status.text, status.pc] for status in run.end.spes], "host": run.end.host, "focus": focus_of(run), "story": story_of(run),
            "ending": run.ending.told, "channels": NAMES, "whole": run.whole and run.whole.told, "overview": overview(run.trace.lines, run.spes), "touched": touched(run.text)}


def blocks_of(run: Run) -> List[str]:
    """The steps, in blocks."""
    return [packed("\n".join(run.trace.lines[start:start + BLOCK])) for start in range(0, run.count, BLOCK)]


def page_of(run: Run) -> Iterator[str]:
    """The page, in parts that follow one another."""
    sources, code = sites_of(run)
    keys = nearest(run.rows, focus_of(run))
    title = shown(f"{os.path.basename(str(run.machine))}: {run.verdict}")
    style = (HERE / "picture.css").read_text(encoding="utf-8")
    yield '<!doctype html>\n<html lang="en"><head><meta charset="utf-8"><meta name="viewport" content="width=device-width">\n'
    yield f"<title>{html.escape(title)}</title>\n<style>\n{style}</style></head>\n<body>\n"
    yield (HERE / "picture.html").read_text(encoding="utf-8")
    yield f'<script id="facts" type="application/json">{safe(jsoned(readable(facts_of(run, sources, code))))}</script>\n'
    yield f'<script id="tables" type="text/plain">{packed(jsoned(tables_of(run, keys, code)))}</script>\n'
    yield '<script id="steps" type="text/plain">' + "\n".join(blocks_of(run)) + "</script>\n"
    yield "<script>\n'use strict';\n" + "".join((HERE / f"{name}.js").read_text(encoding="utf-8") for name in SCRIPTS) + "</script>\n</body></html>\n"


def safe(text: str) -> str:
    """A text that can't end the element that it stands in."""
    return text.replace("<", "\\u003c")
