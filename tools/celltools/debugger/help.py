"""The help of a debugger's commands."""
from typing import List, Sequence

WRITES = """
        An existing file is overwritten only with `over`, and only if it is empty or of the same kind;
        the record of the session is never overwritten."""
# Of each command how it is typed, what it does, and more of it.
COMMANDS = {
    "step": ("step [ACTOR] [N]", "makes N steps, or one", """
        Without an actor, these are the recorded steps ahead; if there are none, the actors take turns, as in `cell debug`'s `until`.
        ACTOR is x0 (SPU 0), m0 (its MFC) or h (the host): only this actor steps then, as long as it can.
        `step p 0 1 0 2`, with a line that `actors` prints, makes this one step."""),
    "next": ("next", "goes to the next instruction of the current SPU, over calls", """
        Meanwhile the other actors take turns. After a brsl, brasl or bisl it stops when the routine has returned."""),
    "finish": ("finish", "runs until the current SPU returns from its routine", """
        This is the return from the latest open brsl, brasl or bisl; recursive calls of the routine are run over.
        Routines that were entered by other branches are not tracked."""),
    "run": ("run [ACTOR..] [PLACE [if CONDITION]]", "runs to a breakpoint, a watchpoint, the end of the recorded steps or the end of the run", """
        With a place, it also stops when an SPU reaches it. With actors, as in `run x1 m1 until again`, only these take turns, as long as one of them
        can step; recorded steps ahead are discarded at the first step of another actor."""),
    "hold": ("hold [ACTOR..]", "holds actors: they make no steps while the others take turns; without actors, lists them", """
        `step`, `next`, `finish` and `run` then go on without them, and discard the recorded steps ahead at the first step of a held actor.
        `step x1` and `run x1` still make their steps."""),
    "release": ("release ACTOR.., release all", "lets held actors take turns again", ""),
    "back": ("back [N], back to N", "goes back N steps, or one; or to the state after N steps", """
        The steps in between become recorded steps ahead: `step`, `next` and `run` make them again, until a different step is made."""),
    "reverse": ("reverse", "goes back to the last hit of a breakpoint or watchpoint", """
        A breakpoint is hit when an SPU reaches its place, a watchpoint after a step that affects its thing."""),
    "last": ("last THING", "goes back to the last step that affected a thing, so that it is the next step", """
        THING is that of `watch`: `last mem 0x80 4` goes to the step that last wrote one of these bytes, and `last $5` to the instruction that last wrote
        the register. Repeat it to go further back. If no earlier step did, the session stays where it is."""),
    "cut": ("cut", "discards the recorded steps ahead: from here on the actors take turns", """
        A step of another actor than the next recorded one does the same. `other` restores the discarded steps."""),
    "other": ("other [N]", "goes back to the place where recorded steps were last discarded, and restores them", """
        Typed twice, it returns to the steps that were made instead, so that two continuations can be compared.
        All discarded steps are kept: `left` lists them, and `other N` restores those with number N."""),
    "left": ("left", "lists the discarded steps, the earliest first", ""),
    "break": ("break [xP] PLACE [if CONDITION]", "sets a breakpoint: stops when an SPU reaches a place; without arguments, lists breakpoints and watchpoints", """
        PLACE is a label (again, again+8), FILE:LINE or a local store address with 0x. It applies to every SPU that has it, or only to SPU P.
        A line without code stands for the next line that has some.
        A channel, by name or number ($ch29, SPU_RdInMbox, 29), means every instruction that reads, counts or writes it.
        `help watch` defines CONDITION."""),
    "tbreak": ("tbreak [xP] PLACE [if CONDITION]", "sets a breakpoint that is deleted after its first hit", ""),
    "watch": ("watch THING [if CONDITION]", "sets a watchpoint: stops after a step that affects a thing", """
        THING is a range (`help x`) or a register ([xP] $5) that is written; or one of these, at any SPU or, with xP in front, at one:
        mailbox [in|out|intr], signal [1|2] (a value is written, delivered or read), event [BITS] (raised or acknowledged),
        stall [TAG] (a list stalls, the status is read, it is acknowledged), reservation [A] (of a line: begun or ended),
        lost (a PUTLLC that fails), tag [TAG] (a tag status is requested, available or read), atomic [A] (an atomic command of a line is issued or
        completes, or its status is read), fault, halt, stop (one ends an SPU). A label with such a name takes precedence.
        CONDITION is VALUE == VALUE, or != < <= > >=; join several with `and`. VALUE is a number, $5 (its word 0), $5.2 (its word 2), pc,
        or a range of 1, 2, 4, 8 or 16 bytes, 4 by default. A register without xP is one of the SPU that reaches the place or makes the step.
        Comparisons are unsigned, unless a number has a minus sign."""),
    "delete": ("delete N, delete all", "deletes a breakpoint or a watchpoint", ""),
    "where": ("where", "prints where each SPU is, what it waits for or why it stopped, and the progress of the host", ""),
    "actors": ("actors", "lists the possible next steps by actor, and the held actors", ""),
    "spe": ("spe [P]", "selects SPU P as the current one, for `print`, `x`, `next`, `list`, `dis`, `queue`, `tags` and `signals`", """
        An SPU also becomes the current one when it is stepped by name or stops a run; if the current SPU has stopped, the SPU that steps becomes it."""),
    "print": ("print [VALUE..] [as WIDTH]", "prints registers, the PC, bytes of labels and ranges, or all nonzero registers", """
        VALUE is [xP] $5, [xP] $5.2 (its word 2), [xP] pc, LABEL or RANGE (`help x`). WIDTH is bytes, halfwords, words, doublewords or quadwords."""),
    "display": ("display [VALUE..] [as WIDTH]", "prints values now and at each stop, as `print` does; without arguments, lists them", ""),
    "undisplay": ("undisplay N, undisplay all", "deletes a display", ""),
    "x": ("x RANGE [as WIDTH]", "prints the bytes of a range", """
        RANGE is [xP] A [N] in a local store (or ls P A N), or mem A [N] in main memory. A is an address, a label, or a register whose word 0 is the
        address; N is the number of bytes, by default those of the label, or 16. WIDTH is that of `print`."""),
    "queue": ("queue [P]", "lists the outstanding commands of an MFC", ""),
    "tags": ("tags [P]", "prints an MFC's parameters, tag groups, statuses, atomic command, reservation and mailboxes", ""),
    "signals": ("signals [P]", "prints an SPU's signal registers with their modes (OR or overwrite), its event mask and its pending events", ""),
    "list": ("list [PLACE]", "prints the source around a place, or around the PC", """
        > marks the line of the PC, and * a breakpoint. For an instruction without a source line it prints the output of `dis`."""),
    "dis": ("dis [PLACE [N]]", "disassembles N words of the local store, or 8", ""),
    "record": ("record [FILE [over]]", "prints the steps made so far as a record, or writes them to a file, for `cell check`", WRITES),
    "picture": ("picture FILE [over]", "draws the steps made so far as a page for a browser, as tools/picture does", WRITES),
    "help": ("help [COMMAND]", "lists the commands, or explains one", ""),
    "quit": ("quit", "ends the session, as the end of input does", ""),
}
SHORT = {"b": "break", "h": "help", "l": "list", "n": "next", "p": "print", "q": "quit", "r": "run", "s": "step", "w": "where"}


def help_lines(names: Sequence[str]) -> List[str]:
    """The help of these commands, or a list of all."""
    if names:
        usage, words, more = COMMANDS[names[0]]
        return [f"{usage}: {words}.", *(line.strip() for line in more.splitlines() if line.strip())]
    width = max(len(usage) for usage, _, _ in COMMANDS.values())
    short = ", ".join(f"{letter} {name}" for letter, name in SHORT.items())
    return [*(f"{usage:{width}}  {words}" for usage, words, _ in COMMANDS.values()), f"short forms: {short}; any unambiguous prefix of a command works too",
            "# at the beginning of a word starts a comment"]
