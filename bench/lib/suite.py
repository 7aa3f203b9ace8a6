"""The suite of rare bugs: small programs for one to eight SPUs, each with a bug that only some schedules show, and programs like them without a bug.

An SPU whose bug has shown ends with `stop 0x0bad`; other bugs are deadlocks, or, if the machine file has the line `# bug: budget`, SPUs that spin until the
budget is spent. Each function below makes the programs of one kind of bug, and its text says how many orderings the bug needs: how many pairs of steps of
different actors have to come in one of their two orders. KINDS has the parameters of all programs, CLEAN those of the programs without a bug.
"""
import dataclasses
import pathlib
from typing import Callable, Dict, Iterator, List, NamedTuple, Sequence, Tuple

from lib.assembly import LINE, Source

LINES = 32  # of main memory
BUDGET = 20_000
AMPLE = 400_000  # the budget of a program without a bug, which has to end within it
BY_MAILBOX = ("host take 1", "host send 0 1")  # the host takes a value from SPU 1, and sends one to SPU 0


@dataclasses.dataclass(frozen=True)
class Program:
    """A program: what is wrong with it, the sources of its SPUs, further lines of its machine file, its budget, and whether a spent budget is its bug."""
    bug: str
    sources: Sequence[Source]
    machine: Sequence[str] = ()
    budget: int = BUDGET
    is_spent: bool = False


class Named(NamedTuple):
    """A program of the suite with its name and its group, and whether it has no bug."""
    name: str
    group: str
    program: Program
    is_clean: bool


# ---- an SPU that is late

def late(steps: int, is_clean: bool = False) -> Program:
    """Relies on speed: an SPU looks at a line once, and assumes that another one, which begins with some steps of work, hasn't stored to it yet. One ordering:
    the store comes before the look. Clean: the other SPU waits for a message."""
    reader, writer = Source().fetch(0).add("brnz $10,bad"), Source()
    if is_clean:
        reader.add("wrch $ch28,$3")
        writer.add("rdch $3,$ch29")
    writer.work(steps).store(0, 1)
    host = ("host take 0", "host send 1 1") if is_clean else ()
    return Program(f"an SPU assumes that it looks before the store that another SPU makes {steps} steps in", [reader, writer], host, max(BUDGET, 4 * steps))


def between(check: int, store: int, is_clean: bool = False) -> Program:
    """Check, then use: an SPU fetches a line to check it and fetches it again to use it, and another SPU stores to it between the two. Two orderings: the store
    comes after the check and before the use. Clean: the use reads what was checked."""
    reader = Source().work(check).fetch(0).add("lr $20,$10")
    if not is_clean:
        reader.fetch(0)
    reader.add("ceq $21,$10,$20", "brz $21,bad")
    return Program(f"a check and a use {check} steps in; a store of another SPU, {store} steps in, comes between", [reader, Source().work(store).store(0, 1)],
                   budget=40_000)


def publish(steps: int, is_clean: bool = False) -> Program:
    """Publishes too early: an SPU sets a flag before it has stored the last word of the data; the other one spins on the flag, works, and reads the data. Two
    orderings: the flag is seen, and the data are read before their last store. Clean: the flag is set last."""
    writer = Source().work(steps).store(0, 1).work(steps)
    writer = writer.store(0, 2).store(LINE, 1) if is_clean else writer.store(LINE, 1).work(steps).store(0, 2)
    reader = Source().spin_until_set(LINE).work(4 * steps).fetch(0).add("ceqi $13,$10,2", "brz $13,bad")
    return Program(f"a flag is set {steps} steps before the last word is stored; the reader works {4 * steps} steps first", [writer, reader], budget=60_000)


def chain(spus: int, steps: int) -> Program:
    """A message overtakes: SPU 0 starts a chain of SPUs, each of which spins on a line and sets the next one, and assumes that it looks before the last line is
    set. One ordering, but all other SPUs have to make their work before SPU 0 goes on."""
    sources = [Source().store(LINE, 1).fetch(spus * LINE).add("brnz $10,bad")]
    sources += [Source().spin_until_set(spu * LINE).work(steps).store((spu + 1) * LINE, 1) for spu in range(1, spus)]
    return Program(f"a word goes through {spus - 1} SPUs, which spin and work {steps} steps, before the first SPU looks", sources, budget=60_000)


def three(before: int, after: int) -> Program:
    """News that are older than the sender: an SPU stores 1 and later 2. A second SPU sees the 1 and tells a third one, which still reads the 1 although the
    second one has long gone on. Three orderings: the second SPU reads after the store of 1, the third one after its message and before the store of 2."""
    writer = Source().work(before).store(0, 1).work(after).store(0, 2)
    teller = Source().work(after).fetch(0).add("ceqi $13,$10,1", "brz $13,quit").store(LINE, 1)
    reader = Source().work(2 * before).fetch(LINE).add("lr $20,$10").fetch(0).add("ceqi $13,$10,1", "brz $13,quit", "brnz $20,bad")
    return Program(f"a second SPU sees 1 and tells a third one, which sees 1, too ({before} and {after} steps of work)", [writer, teller, reader], budget=60_000)


def signal_over(steps: int, is_clean: bool = False) -> Program:
    """Signals overwritten: two SPUs send a bit each to a signal register that isn't in OR mode, and the second word replaces the first before it is read: the
    reader waits forever for the lost bit. Two orderings: both signals come before the read that should take the first. Clean: the register is in OR mode."""
    def signal(bit: int, pause: int) -> Source:
        return Source().work(pause).size(4).add(f"il $11,{bit}", "stqa $11,line").choose("SNDSIG").queue(0, "line")

    reader = Source().add("il $30,0").label("again").add("rdch $6,$ch3", "or $30,$30,$6", "ceqi $7,$30,3", "brz $7,again")
    return Program(f"two signals, {steps} steps apart, to a register that isn't in OR mode", [reader, signal(1, 50), signal(2, 50 + steps)],
                   ("ormode 0 1",) if is_clean else ())


# ---- reservations

def stack(steps: int, is_clean: bool = False) -> Program:
    """ABA: an SPU pops from a list. It reads the top, which is node 1, and the node after it, and stores that node as the top if the top has the same value as
    before. Meanwhile another SPU pops two nodes and pushes the first one again. Two orderings: the first pop comes after the read of the node after the
    top, the push before the second look. Clean: each change of the top counts up a version, which is compared, too.

    Line 0 has the top, at 16 whether node 2 is in use, and at 32 the version; line 1 has the node after node 1."""
    version = ("lqa $13,line+32", "ai $13,$13,1", "stqa $13,line+32")
    victim = Source().work(steps).fetch(0).add("lr $20,$10", "ceqi $24,$20,1", "brz $24,quit", "lqa $25,line+32")
    victim.fetch(LINE, "block").add("lr $21,$10").label("again").fetch(0)
    victim.add("ceq $22,$10,$20", "brz $22,quit")
    if is_clean:
        victim.add("lqa $26,line+32", "ceq $26,$25,$26", "brz $26,quit")
    victim.add("stqa $21,line").atomic("PUTLLC").add("brnz $6,again", "lqa $23,line+16", "ceqi $24,$21,2", "and $23,$23,$24", "brnz $23,bad")
    other = Source().update(0, "il $11,2", "stqa $11,line", *version).work(10)
    other.update(0, "il $11,3", "stqa $11,line", "il $11,1", "stqa $11,line+16", *version).work(10)
    other.store(LINE, 3).update(0, "il $11,1", "stqa $11,line", *version)
    memory = (f"mem 0 {'00000001' * 4}", f"mem {LINE} {'00000002' * 4}")
    return Program(f"ABA at the top of a list; the victim begins {steps} steps in", [victim, other], memory, 40_000)


def retry(losses: int, spus: int, times: int, is_clean: bool = False) -> Program:
    """Gives up: an SPU increments a counter by GETLLAR and PUTLLC, and takes an untested path if the PUTLLC has lost several times in a row. As many orderings:
    before each PUTLLC another SPU stores to the line. Clean: it tries until the PUTLLC stores."""
    victim = Source().add(f"il $30,{losses}").label("again").fetch(0).add("ai $12,$10,1", "stqa $12,line").atomic("PUTLLC")
    victim.add("brz $6,quit", *(["br again"] if is_clean else ["ai $30,$30,-1", "brnz $30,again", "br bad"]))
    other = Source()
    for _ in range(times):
        other.increase(0)
    return Program(f"a PUTLLC that loses {losses} times in a row gives up; {spus - 1} other SPUs increment {times} times", [victim] + [other] * (spus - 1))


def rare_path(losses: int, spus: int) -> Program:
    """A data race on a rare path: an SPU that has lost several PUTLLCs reads a block before it has waited for its GET. As many orderings as it has to lose. The
    path ends with the stop, since the race is there in every schedule that comes so far."""
    racing = Source().size(16).choose("GET").queue(256, "block").add("il $30,0").label("again").fetch(0).add("ai $12,$10,1", "stqa $12,line")
    racing.atomic("PUTLLC").add("brz $6,fine", "ai $30,$30,1", f"ceqi $7,$30,{losses}", "brz $7,again", "lqa $8,block", "br bad")
    racing.label("fine").wait_for_tags(1)
    if spus > 2:
        return Program(f"a data race after {losses} lost PUTLLCs of {spus} SPUs, which increment once", [racing] * spus)
    other = Source()
    for _ in range(5):
        other.increase(0)
    return Program(f"a data race after {losses} lost PUTLLCs; the other SPU increments five times", [racing, other])


def dcl(spus: int, steps: int, is_clean: bool = False) -> Program:
    """Double-checked initialization without the second check: each SPU that finds the flag unset makes the thing and then sets the flag. The bug is that all
    SPUs make it. One ordering fewer than there are SPUs: each other one looks before the first flag is set. Clean: the flag is taken by GETLLAR and PUTLLC."""
    sources = []
    for spu in range(spus):
        source = Source().work(20 * spu).label("look").fetch(0).add("brnz $10,quit")
        if is_clean:
            source.add("il $11,1", "stqa $11,line").atomic("PUTLLC").add("brnz $6,look")
        source.work(steps).increase(LINE).add(f"ceqi $13,$12,{spus}", "brnz $13,bad")
        sources.append(source if is_clean else source.store(0, 1))
    return Program(f"a flag is checked once: all {spus} SPUs find it unset, and then work {steps} steps", sources)


# ---- locks, barriers and regions

def deadlock(steps: int, is_clean: bool = False) -> Program:
    """Two spin locks in two orders: each SPU takes one and spins for the other. Two orderings: each takes its first lock before the other one takes it as its
    second. Clean: both take them in the same order."""
    first, second = (0, LINE) if is_clean else (LINE, 0)
    one = Source().work(steps).lock(0).work(10).lock(LINE).unlock(LINE).unlock(0)
    other = Source().lock(first).work(10).lock(second).unlock(second).unlock(first).work(steps)
    return Program(f"two spin locks in two orders; the first SPU takes them {steps} steps in", [one, other], budget=BUDGET + 4 * steps, is_spent=True)


def barrier(spus: int, is_clean: bool = False) -> Program:
    """A barrier that is used again: SPUs count up, the last one sets the count back to 0, and the others spin until it is 0. One that looks too late finds that
    the next use has begun, and all wait forever. Two orderings: an SPU comes to the next use before another one has looked, and the other one waits then.
    Clean: the last SPU also counts the uses, at 16 of the line, and the others wait for the next count."""
    source = Source()
    count_up, compare = ["ai $15,$14,1", "stqa $15,line+16"], ["lqa $15,line+16", "ceq $10,$15,$14"]
    for use in range(3):
        source.label(f"come{use}").fetch(0).add("lqa $14,line+16", "ai $12,$10,1", f"ceqi $13,$12,{spus}", f"brz $13,early{use}", "il $12,0")
        source.add(*(count_up if is_clean else [])).label(f"early{use}").add("stqa $12,line").atomic("PUTLLC").add(f"brnz $6,come{use}", f"brnz $13,go{use}")
        source.label(f"wait{use}").fetch(0).add(*(compare if is_clean else []), f"brnz $10,wait{use}").label(f"go{use}").add("nop")
    return Program(f"a barrier of {spus} SPUs is used again before all have left it", [source] * spus, budget=8000, is_spent=True)


def inside(spus: int, apart: int) -> Program:
    """A region that is too full: SPUs that come some steps apart are all in a short region at once. One ordering fewer than there are SPUs: each enters before
    the first one leaves."""
    sources = [Source().work(apart * spu).increase(0).fetch(0).add(f"ceqi $13,$10,{spus}", "brnz $13,bad").increase(0, -1) for spu in range(spus)]
    return Program(f"{spus} SPUs, which come {apart} steps apart, are in a short region at once", sources, budget=60_000)


# ---- mailboxes, events and time-outs

def wakeup(pause: int, is_clean: bool = False) -> Program:
    """A lost wake-up: an SPU waits for the event of its inbound mailbox, empties the mailbox, and then acknowledges the event. If a value comes after its last
    look and before the acknowledgement, the event is lost: a deadlock. Two orderings. Clean: it acknowledges before it empties the mailbox."""
    waiter = Source().add("il $3,0x10", "wrch $ch1,$3", "il $81,0").label("wait").add("rdch $4,$ch0")
    if is_clean:
        waiter.add("wrch $ch2,$4")
    waiter.label("more").add("rchcnt $5,$ch29", "brz $5,empty", "rdch $6,$ch29", "ai $81,$81,1", "br more").label("empty")
    if not is_clean:
        waiter.add("wrch $ch2,$4")
    waiter.add("ceqi $7,$81,2", "brz $7,wait")
    sender = Source().add("wrch $ch28,$3").work(200 + pause).add("wrch $ch28,$3")
    return Program(f"an event is acknowledged after the last look; the second value comes {200 + pause} steps after the first", [waiter, sender],
                   (*BY_MAILBOX, "host take 1", "host send 0 2"))


def timeout(polls: int, is_clean: bool = False) -> Program:
    """A time-out that is too short: an SPU polls its mailbox some times and gives up, although the message was sent at once. One ordering: all polls come before
    the message. Clean: it waits."""
    poller = Source()
    if not is_clean:
        poller.add(f"il $30,{polls}").label("poll").add("rchcnt $5,$ch29", "brnz $5,got", "ai $30,$30,-1", "brnz $30,poll", "br bad").label("got")
    sources = [poller.add("rdch $6,$ch29"), Source().add("wrch $ch28,$3")]
    return Program(f"an SPU polls its mailbox {polls} times and gives up; the other one sends at once", sources, BY_MAILBOX)


def timeout_line(polls: int) -> Program:
    """The same time-out for a line of main memory: one ordering."""
    poller = Source().add(f"il $30,{polls}").label("poll").fetch(0).add("brnz $10,quit", "ai $30,$30,-1", "brnz $30,poll", "br bad")
    return Program(f"an SPU polls a line {polls} times and gives up; the other one sets it 50 steps in", [poller, Source().work(50).store(0, 1)])


def full_mailbox(steps: int) -> Program:
    """An overfull mailbox: an SPU has room for three values, counts the values in its inbound mailbox, and finds four. One ordering: the host sends the fourth
    before the SPU takes one."""
    reader = Source().add("il $31,6").label("again").add("rchcnt $5,$ch29", "ceqi $7,$5,4", "brnz $7,bad", "brz $5,again", "rdch $6,$ch29", "ai $31,$31,-1",
                                                         "brnz $31,again")
    sender = Source()
    for _ in range(3):
        sender.work(steps).add("wrch $ch28,$3")
    host = [line for value in (1, 3, 5) for line in ("host take 1", f"host send 0 {value}", f"host send 0 {value + 1}")]
    return Program(f"an SPU that expects at most three values finds four; the other one asks for two each {steps} steps", [reader, sender], host)


# ---- DMA

def queued_stores(count: int, waits: bool = False) -> Source:
    """PUTQLLUCs of a 1 to the first lines, each of its own tag, with a wait before the last one or without."""
    source = Source()
    for number in range(count):
        source.add("il $11,1", f"stqa $11,blocks+{LINE * number}")
    source.choose("PUTQLLUC")
    for number in range(count):
        if waits and number == count - 1:
            source.wait_for_tags((1 << number) - 1)
        source.queue(LINE * number, f"blocks+{LINE * number}", number)
    return source


def late_queue(count: int, is_clean: bool = False) -> Program:
    """PUTQLLUCs without a wait: the last one is seen before the first one is done. Two orderings: the reader's first look comes after the last command, its
    second one before the first command. Clean: the tags of the others are waited for before the last one is issued."""
    reader = Source().fetch(LINE * (count - 1)).add("lr $20,$10").fetch(0).add("brz $20,quit", "brz $10,bad")
    return Program(f"the last of {count} PUTQLLUCs is seen before the first one is done", [queued_stores(count, is_clean), reader])


def late_alone(count: int) -> Program:
    """The same, but the first PUTQLLUC alone isn't done when the reader looks at all of them: two orderings, of which the second one makes the first command
    the last of all."""
    reader = Source()
    for number in range(1, count):
        reader.fetch(LINE * number).add("brz $10,quit")
    return Program(f"of {count} PUTQLLUCs the first one alone isn't done", [queued_stores(count), reader.fetch(0).add("brz $10,bad")])


def stalls(count: int, is_clean: bool = False) -> Program:
    """Lists that stall at once: an SPU issues lists whose first elements stall, and reads the stall status when it has issued all. The bug is that all of them
    have stalled by then. One ordering. Clean: it acknowledges as many as there are."""
    source = Source().choose("GETL").size(16)
    for tag in range(count):
        source.queue(f"lists+{16 * tag}", f"blocks+{2 * LINE * tag}", tag).work(30)
    source.add("il $80,0").label("look").add("rdch $20,$ch25", "il $21,0")
    for tag in range(count):
        source.add(f"andi $22,$20,{1 << tag}", "ceqi $23,$22,0", "ai $23,$23,1", "a $21,$21,$23")
    if not is_clean:
        source.add(f"cgti $24,$21,{count - 1}", "brnz $24,bad")
    for tag in range(count):
        source.add(f"andi $22,$20,{1 << tag}", f"brz $22,next{tag}", f"il $8,{tag}", "wrch $ch26,$8").label(f"next{tag}")
    source.add("a $80,$80,$21", f"ceqi $25,$80,{count}", "brz $25,look")
    source.data = ["lists:", *(f"\t.long 0x80000080,{2 * LINE * tag},0x80,{2 * LINE * tag + LINE}" for tag in range(count))]
    return Program(f"all of {count} lists, issued 30 steps apart, have stalled at the first look", [source])


def order(count: int) -> Program:
    """Commands complete in reverse: an SPU issues GETs of different tags and waits for any of them; the bug is that they complete one by one, the last one
    first. As many orderings as there are GETs."""
    source = Source().size(16).choose("GET")
    for tag in range(count):
        source.queue(LINE * tag, f"blocks+{LINE * tag}", tag)
    source.add(f"il $20,{(1 << count) - 1}", "il $22,1")
    for tag in reversed(range(count)):
        source.add("wrch $ch22,$20", "wrch $ch23,$22", "rdch $21,$ch24", f"ceqi $23,$21,{1 << tag}", "brz $23,wait", "xor $20,$20,$21")
    return Program(f"{count} GETs complete one by one, the last one first", [source.add("br bad").label("wait").wait_for_tags(-1)])


# ---- exact sequences

def taking_turns(times: int, spu: int, pause: int = 0) -> Source:
    """Increments a counter; at the end, $31 is 0 if it always found the value that strict turns give it."""
    source = Source().work(pause).add("il $31,0")
    for turn in range(times):
        source.increase(0).add(f"ceqi $13,$10,{2 * turn + spu}", "a $31,$31,$13")
    return source.add(f"ai $31,$31,{times}")


def alternate(times: int) -> Program:
    """Strict turns: two SPUs increment a counter, and the bug shows only if they take turns each time. One ordering for each change of turns."""
    return Program(f"two SPUs increment {times} times each, in strict turns", [taking_turns(times, 0), taking_turns(times, 1).add("brz $31,bad")])


def late_alternate(times: int) -> Program:
    """The same, if the first SPU begins 1,000 steps in: one ordering more."""
    return Program(f"the same {times} times, but the first SPU begins 1,000 steps in",
                   [taking_turns(times, 0, 1000), taking_turns(times, 1).add("brz $31,bad")])


def ring(ahead: int, is_clean: bool = False) -> Program:
    """A ring that nobody checks for room: the producer gets so far ahead that it overwrites what wasn't read. One ordering. Clean: the producer waits for room,
    and the consumer for an element."""
    producer, consumer, elements = Source(), Source().add("il $31,0"), ahead + 6
    for element in range(elements):
        if is_clean:
            producer.label(f"room{element}").fetch(LINE).add(f"cgti $14,$10,{element - ahead}", f"brz $14,room{element}")
        producer.increase(0)
    for element in range(elements if is_clean else elements // 2):
        consumer.label(f"come{element}").fetch(0)
        if is_clean:
            consumer.add("cgt $14,$10,$31", f"brz $14,come{element}")
        consumer.add("sf $13,$31,$10", f"cgti $14,$13,{ahead}", "brnz $14,bad", "ai $31,$31,1")
        if is_clean:
            consumer.store(LINE, element + 1)
    return Program(f"a producer gets more than {ahead} elements ahead", [producer, consumer])


def values(reads: int, gap: int = 0) -> Source:
    """Stores 1, 2, .. to a line, three values for each read."""
    source = Source()
    for value in range(1, 3 * reads + 1):
        source.work(gap).store(0, value)
    return source


def stages(reads: int, gap: int) -> Program:
    """Stages: each of some reads has to find one exact value of those that another SPU stores one after the other. Two orderings for each read, but for one."""
    reader = Source()
    for read in range(reads):
        reader.fetch(0).add(f"ceqi $13,$10,{(read + 1) * 3 * reads // (reads + 1)}", "brz $13,quit")
    return Program(f"{reads} reads find {reads} exact values of {3 * reads}, which are stored {gap} steps apart", [reader.add("br bad"), values(reads, gap)])


def stages_loop(reads: int) -> Program:
    """The same with the reads in a loop, so that no address tells the stages apart."""
    apart = 3 * reads // (reads + 1)
    reader = Source().add(f"il $30,{reads}", f"il $31,{apart}", f"il $32,{apart}").label("again").fetch(0).add("ceq $13,$10,$31", "brz $13,quit")
    reader.add("a $31,$31,$32", "ai $30,$30,-1", "brnz $30,again", "br bad")
    return Program(f"{reads} reads in a loop find {reads} exact values of {3 * reads}", [reader, values(reads)])


# ---- the table

class Kind(NamedTuple):
    """Programs of one kind: the form of their names, their group, what makes them, and their parameters."""
    name: str
    group: str
    make: Callable[..., Program]
    parameters: Sequence[Tuple[int, ...]]


PAUSES, RESERVATIONS, LOCKS, WAITING, DMA, SEQUENCES = "pauses", "reservations", "locks", "waiting", "DMA", "sequences"
GROUPS: Dict[str, str] = {
    PAUSES: "an SPU is late",
    RESERVATIONS: "PUTLLCs that lose, ABA, double-checked flags",
    LOCKS: "locks, barriers and regions",
    WAITING: "mailboxes, events and time-outs",
    DMA: "transfers and lists that complete in a rare order",
    SEQUENCES: "strict turns, exact values, rings",
}
KINDS = (
    Kind("late_{}", PAUSES, late, [(30,), (1000,), (10_000,)]),
    Kind("between_{}_{}", PAUSES, between, [(20, 20), (200, 600), (2000, 6000)]),
    Kind("publish_{}", PAUSES, publish, [(5,), (100,), (1000,)]),
    Kind("chain_{}_{}", PAUSES, chain, [(3, 10), (6, 10), (6, 300)]),
    Kind("three_{}_{}", PAUSES, three, [(10, 10), (300, 100), (100, 3000)]),
    Kind("signal_over_{}", PAUSES, signal_over, [(20,), (3000,)]),
    Kind("stack_{}", RESERVATIONS, stack, [(10,), (400,), (4000,)]),
    Kind("retry_{}_{}p", RESERVATIONS, retry, [(2, 2, 4), (4, 2, 8), (6, 2, 12), (4, 4, 3), (8, 8, 2), (10, 2, 20)]),
    Kind("rarepath_{}_{}p", RESERVATIONS, rare_path, [(2, 2), (4, 5), (4, 2)]),
    Kind("dcl_{}p_{}", RESERVATIONS, dcl, [(2, 0), (8, 0), (8, 100)]),
    Kind("deadlock_{}", LOCKS, deadlock, [(10,), (300,), (3000,)]),
    Kind("barrier_{}p", LOCKS, barrier, [(2,), (5,)]),
    Kind("inside_{}p_{}", LOCKS, inside, [(3, 100), (4, 30), (4, 400), (8, 20), (8, 200), (3, 3000)]),
    Kind("wakeup_{}", WAITING, wakeup, [(0,), (100,), (2000,)]),
    Kind("timeout_{}", WAITING, timeout, [(5,), (300,)]),
    Kind("timeout_line_{}", WAITING, timeout_line, [(5,), (30,)]),
    Kind("mbox_full_{}", WAITING, full_mailbox, [(10,)]),
    Kind("late_queue_{}", DMA, late_queue, [(2,), (8,), (14,)]),
    Kind("late_alone_{}", DMA, late_alone, [(4,), (10,)]),
    Kind("stalls_{}", DMA, stalls, [(3,), (7,)]),
    Kind("order_{}", DMA, order, [(4,), (5,), (6,)]),
    Kind("alternate_{}", SEQUENCES, alternate, [(3,), (5,), (8,), (12,)]),
    Kind("late_alternate_{}", SEQUENCES, late_alternate, [(5,)]),
    Kind("ring_{}", SEQUENCES, ring, [(4,), (12,)]),
    Kind("stages_{}_{}", SEQUENCES, stages, [(2, 0), (3, 0), (4, 0), (6, 0), (3, 100), (4, 100)]),
    Kind("stagesloop_{}", SEQUENCES, stages_loop, [(4,)]),
)
CLEAN = (
    Kind("clean_late_{}", PAUSES, late, [(100,)]),
    Kind("clean_between_{}_{}", PAUSES, between, [(200, 600)]),
    Kind("clean_publish_{}", PAUSES, publish, [(100,)]),
    Kind("clean_signal_over_{}", PAUSES, signal_over, [(300,)]),
    Kind("clean_stack_{}", RESERVATIONS, stack, [(10,)]),
    Kind("clean_retry_{}_{}p", RESERVATIONS, retry, [(4, 4, 3)]),
    Kind("clean_dcl_{}p_{}", RESERVATIONS, dcl, [(8, 100)]),
    Kind("clean_deadlock_{}", LOCKS, deadlock, [(300,)]),
    Kind("clean_barrier_{}p", LOCKS, barrier, [(3,)]),
    Kind("clean_wakeup_{}", WAITING, wakeup, [(100,)]),
    Kind("clean_timeout_{}", WAITING, timeout, [(30,)]),
    Kind("clean_late_queue_{}", DMA, late_queue, [(8,)]),
    Kind("clean_stalls_{}", DMA, stalls, [(5,)]),
    Kind("clean_ring_{}", SEQUENCES, ring, [(4,)]),
)
# Programs whose bug came at least once in some 25 runs with four simple strategies: a hunt of 200 runs has to find it.
COMMON = {
    "late_30", "late_1000", "late_10000", "between_20_20", "deadlock_10", "retry_2_2p", "retry_4_4p", "timeout_5", "timeout_300", "timeout_line_5",
    "timeout_line_30", "stalls_3", "stalls_7", "dcl_2p_0", "dcl_8p_0", "dcl_8p_100", "mbox_full_10", "barrier_2p", "barrier_5p", "ring_4", "ring_12",
    "signal_over_20", "signal_over_3000", "inside_3p_100", "rarepath_2_2p", "publish_1000",
}  # fmt: skip


def with_bug() -> Iterator[Named]:
    for kind in KINDS:
        for parameters in kind.parameters:
            yield Named(kind.name.format(*parameters), kind.group, kind.make(*parameters), False)


def without_bug() -> Iterator[Named]:
    """The programs without a bug. Their budget is ample: a run that spends it has schedules that let an SPU spin for too long."""
    for kind in CLEAN:
        for parameters in kind.parameters:
            program = kind.make(*parameters, is_clean=True)
            clean = dataclasses.replace(program, bug=f"without this bug: {program.bug}", budget=AMPLE, is_spent=False)
            yield Named(kind.name.format(*parameters), kind.group, clean, True)


def write(folder: pathlib.Path, named: Named) -> pathlib.Path:
    """Writes a program's sources and its machine file into a folder, and returns the machine file."""
    program = named.program
    sources: Dict[str, pathlib.Path] = {}
    lines: List[str] = [f"# {program.bug}", *(["# bug: budget"] if program.is_spent else []), "cell-machine 1", f"lines {LINES}", f"budget {program.budget}"]
    for number, source in enumerate(program.sources):
        text = source.text()
        if text not in sources:
            sources[text] = folder / f"{named.name}_{number}.s"
            sources[text].write_text(text)
        lines += ["spe", f"source {sources[text]}"]
    machine = folder / f"{named.name}.cell"
    machine.write_text("\n".join([*lines, *program.machine]) + "\n")
    return machine
