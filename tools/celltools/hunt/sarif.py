"""What a hunt found as SARIF 2.1.0, the OASIS standard's form for the results of tools that look for faults."""
import hashlib
import os
import re
import urllib.parse
from typing import List, NamedTuple, Optional, Sequence

from celltools.common.repository import version
from celltools.common.texts import lines_in
from celltools.hunt.endings import Json
from celltools.hunt.findings import WARNING_KINDS, word_of
from celltools.hunt.sums import Hunt, Told
from celltools.hunt.text import finding_head

SCHEMA = "https://json.schemastore.org/sarif-2.1.0.json"
ROOT = "%SRCROOT%"  # names the folder from which URIs are relative
FINGERPRINT = "cellHunt/v2"


class Rule(NamedTuple):
    """A rule: its name, what breaks it, and what to do then."""
    name: str
    broken: str
    help: str


RULES = {
    "race": Rule("DmaRace", "Two steps of a run touch a byte, one of them writes it, and neither happens before the other.",
                 "Make the first wait for the second, or the other way round. `tools/race --run K MACHINE` names the missing wait, and `tools/witness --run K "
                 "MACHINE` prints both orders as records. docs/guide/races.md has the rules."),
    "halt": Rule("Halt", "An SPU executes a halt instruction whose condition holds.",
                 "`tools/debug --run K MACHINE` begins at the end of the run, and `last` finds the step that wrote the operands of the halt."),
    "fault": Rule("Fault", "An SPU stops at a word that is not an instruction, a channel that does not exist, or a command that breaks a rule.",
                  "`tools/race --run K MACHINE` names the rule that was broken. docs/reference/machine.md has all rules of commands and channels."),
    "deadlock": Rule("Deadlock", "A run ends in a deadlock: an SPU waits, and no step is possible.",
                     "`tools/race --run K MACHINE` prints what each SPU waits for, and `tools/debug --run K MACHINE` begins at the end of the run."),
    "livelock": Rule("Livelock", "A run spends its budget of steps while its SPUs loop, and none changes anything that another one sees.",
                     "`tools/race --run K MACHINE` prints the loops of the SPUs, and `tools/debug --run K MACHINE` begins at the end of the run."),
    "missed": Rule("LineMissed", "The states of a run lack a line that --expect requires of every run.",
                   "`tools/states --run K MACHINE` prints the states of the run, to compare them with the file of --expect."),
    "budget": Rule("BudgetSpent", "A run spends its budget of steps while an SPU still runs and progresses.",
                   "Raise `budget` in the machine file if the program only takes long. Otherwise `tools/debug --run K MACHINE` shows the endless loop."),
    "lost-signal": Rule("LostSignal", "A value in a signal register is overwritten before it is read, or never read.",
                        "Let the sender wait until the value was read, or set OR mode (`ormode`). `tools/debug --run K MACHINE` steps through the run."),
    "unread-putllc": Rule("UnreadPutllc", "A PUTLLC stores nothing, and its status is never read, so the update is lost.",
                          "Read the atomic status after each PUTLLC, and repeat the update if it failed."),
    "unread-tags": Rule("UnreadTagStatus", "A tag status is overwritten before it is read, or never read.",
                        "Read the tag status after each request. `tools/debug --run K MACHINE` steps through the run."),
    "unwritten-bytes": Rule("UnwrittenBytes", "A load or a DMA command reads bytes of a local store that neither the machine file nor an earlier step wrote.",
                            "Compare the address and the size with what the program wrote before: mostly a list or a PUT is too long, or a layout has gaps. "
                            "`tools/debug --run K MACHINE` steps through the run."),
}  # fmt: skip
PLACE = re.compile(r"(.+?):(\d+)(?::\d+)?")
PLACED = re.compile(r"  (.+?:\d+): .*  \(.*\)")  # a line of a finding that a source line placed
SUPPRESSION = "  suppression: "


# ---- places

class Places:
    """Locations of the log: files are named from the root of the repository that is around this folder, or else from this folder."""

    def __init__(self, machine: str) -> None:
        self.machine = machine
        self.root = repository_around(os.getcwd())

    def uri(self, file: str) -> Json:
        """A file by its URI, relative to the root; one outside of it by its whole name."""
        path = os.path.normpath(os.path.join(os.getcwd(), file))
        relative = os.path.relpath(path, self.root)
        if relative.startswith(os.pardir):
            return {"uri": f"file://{encoded(path)}"}
        return {"uri": encoded(relative), "uriBaseId": ROOT}

    def location(self, place: Optional[str]) -> Json:
        """A place `FILE:LINE`, which may have a column after it, or the machine file if none is known."""
        found = PLACE.fullmatch(place or "")
        file, line = (found[1], max(1, int(found[2]))) if found else (self.machine, 1)
        return {"physicalLocation": {"artifactLocation": self.uri(file), "region": {"startLine": line}}}


def repository_around(folder: str) -> str:
    """The folder, or the nearest one around it, that has a `.git`; the folder itself if none has."""
    at = folder
    while not os.path.exists(os.path.join(at, ".git")):
        if at == os.path.dirname(at):
            return folder
        at = os.path.dirname(at)
    return at


def encoded(path: str) -> str:
    """A path as it is written in a URI."""
    return urllib.parse.quote(os.fsencode(path))


# ---- results

def in_message(text: str) -> str:
    """A text of a message, in which backslashes and brackets have meanings."""
    return re.sub(r"([\\\[\]])", r"\\\1", text)


class Spot(NamedTuple):
    """A line of a finding, with its place or None."""
    text: str
    place: Optional[str]


def linked(spots: Sequence[Spot], related: Sequence[Spot]) -> str:
    """The lines, of which the related ones link to their locations."""
    return "\n".join(f"[{in_message(spot.text)}]({related.index(spot) + 1})" if spot in related else in_message(spot.text) for spot in spots)


def place_in(line: str) -> Optional[str]:
    found = PLACED.fullmatch(line)
    return found[1] if found else None


class Log:
    """The results of a hunt."""

    def __init__(self, hunt: Hunt) -> None:
        self.hunt, self.places = hunt, Places(hunt.machine)

    def spots(self, found: Told) -> List[Spot]:
        """The lines of a finding. Those of a race have the places of the race, which may be lines of a program from which the source was made."""
        lines = [line for line in lines_in(found.members["shown"].encode("latin-1")) if not line.startswith(SUPPRESSION)]
        race = self.hunt.tallies["race"].told.get(found.members["key"][len("race"):]) if word_of(found.members) == "race" else None
        places = race.members["places"] if race else map(place_in, lines)
        return [Spot(line.strip(), place) for line, place in zip(lines, places)]

    def result(self, found: Told) -> Json:
        """The result of a finding: at the place of its first line, with the others as related ones. Its fingerprint is the same in each hunt that has it."""
        rule, spots = word_of(found.members), self.spots(found)
        related = [spot for spot in spots[1:] if spot.place]
        text = f"{finding_head(found, self.hunt.head.runs)}\n{linked(spots, related)}"
        whole_key = "\0".join((self.hunt.machine, rule, found.members["key"]))
        of_result: Json = {"ruleId": rule, "ruleIndex": list(RULES).index(rule), "level": level_of(rule), "message": {"text": text},
                           "locations": [self.places.location(spots[0].place)]}
        if related:
            of_result["relatedLocations"] = [{"id": number, **self.places.location(spot.place), "message": {"text": spot.text}} for number, spot in enumerate(related, 1)]
        return {**of_result, "partialFingerprints": {FINGERPRINT: hashlib.sha256(whole_key.encode("utf-8", "surrogateescape")).hexdigest()}}


def level_of(rule: str) -> str:
    return "warning" if rule in WARNING_KINDS else "error"


def rule_of(name: str, rule: Rule) -> Json:
    return {"id": name, "name": rule.name, "shortDescription": {"text": rule.broken}, "fullDescription": {"text": rule.broken},
            "help": {"text": rule.help.replace("`", ""), "markdown": rule.help}, "defaultConfiguration": {"level": level_of(name)}}


def sarif_of(hunt: Hunt) -> Json:
    """The log of a hunt."""
    log = Log(hunt)
    driver = {"name": "hunt", "version": version(), "semanticVersion": version(), "rules": [rule_of(name, rule) for name, rule in RULES.items()]}
    return {
        "$schema": SCHEMA, "version": "2.1.0",
        "runs": [{"tool": {"driver": driver}, "automationDetails": {"id": f"hunt/{encoded(hunt.machine)}/"}, "columnKind": "utf16CodeUnits",
                  "originalUriBaseIds": {ROOT: {"description": {"text": "the root of the repository"}}}, "results": list(map(log.result, hunt.findings() + hunt.warnings()))}],
    }
