"""The rules that a fault breaks: which parameter of a command breaks which rule, or which channel can't be used so.

docs/reference/machine.md has the rules, each with the kind of fault that a status names, in the order in which they are tested.
"""
from typing import Callable, Dict, Iterable, Iterator, NamedTuple, Optional, Tuple

from celltools.run.effects import MEMORY_LINE
from celltools.source.channels import ABSENT, COMMANDS, NAMES, READ, channel_name, channel_of
from celltools.source.gas_words import ABSENT_NAMES
from celltools.source.language import STORE
from celltools.source.names import NONE, Names

LIST_ENTRY = 8  # bytes
MOST_BYTES = 16_384  # of a transfer, and of a list
MOST_TAG, MOST_REGISTER = 31, 31
SIGNAL = 4  # bytes
WHOLE = 16  # bytes: a transfer has a multiple of it, or one of the sizes below
SMALL = (0, 1, 2, 4, 8)
LOW_HALF = 0xFFFF
ELEMENT_SIZES = 0x8000  # the first word of an element has its size below

Broken = Optional[Tuple[str, str]]  # the kind of a fault, and the rule that is broken in words


class Asked(NamedTuple):
    """What a command asks for: an address in the store and the upper and lower half of one in main memory, how many bytes, and a tag."""
    lsa: int
    high: int
    low: int
    size: int
    tag: int


def first_broken(rules: Iterable[Tuple[bool, str, str]]) -> Broken:
    """The first rule that is broken, of some that say whether they are."""
    return next(((kind, words) for is_broken, kind, words in rules if is_broken), None)


class Owner(NamedTuple):
    """Whose command it is: how many bytes main memory has, the number of the processor, and what the places of both are called."""
    memory: int
    spe: int = 0
    names: Names = NONE

    def local(self, at: int) -> str:
        return self.names.address(self.spe, at)

    def remote(self, at: int) -> str:
        return self.names.address(None, at)


Rules = Iterator[Tuple[bool, str, str]]  # each whether it is broken, the kind of its fault, and in words


def within_store(name: str, at: int, size: int, owner: Owner) -> Rules:
    yield at + size > STORE, "store", f"{name} {owner.local(at)} with size {size} goes beyond the end of the local store, 0x{STORE:x}"


def within_memory(name: str, at: int, size: int, owner: Owner) -> Rules:
    yield at + size > owner.memory, "memory", f"{name} {owner.remote(at)} with size {size} goes beyond the end of main memory, 0x{owner.memory:x}"


def transfer_rules(local: str, ls: int, remote: str, ea: int, size: int, owner: Owner) -> Rules:
    """The rules of a transfer between an address of the store and one of main memory, each with what it is called."""
    here, there = f"{local} {owner.local(ls)}", f"{remote} {owner.remote(ea)}"
    yield size > MOST_BYTES, "size", f"size {size} is greater than {MOST_BYTES}"
    yield size % WHOLE != 0 and size not in SMALL, "size", f"size {size} is not one of {', '.join(map(str, SMALL))} or a multiple of {WHOLE}"
    if 0 < size < WHOLE:
        yield ea % size != 0, "alignment", f"{there} is not a multiple of the size, {size}"
        yield ls % WHOLE != ea % WHOLE, "alignment", f"the low four bits of {here} and {there} differ, but size {size} requires them to be equal"
    elif size:
        yield from ((at % WHOLE != 0, "alignment", f"{what} is not a multiple of {WHOLE}, as size {size} requires") for at, what in ((ls, here), (ea, there)))
    yield from within_store(local, ls, size, owner)
    yield from within_memory(remote, ea, size, owner)


def of_transfer(asked: Asked, owner: Owner) -> Rules:
    return transfer_rules("LSA", asked.lsa, "EAL", asked.low, asked.size, owner)


def of_list(asked: Asked, owner: Owner) -> Rules:
    yield asked.size % LIST_ENTRY != 0, "size", f"list size {asked.size} is not a multiple of {LIST_ENTRY}"
    yield asked.size > MOST_BYTES, "size", f"list size {asked.size} is greater than {MOST_BYTES}"
    yield asked.low % LIST_ENTRY != 0, "alignment", f"EAL {owner.local(asked.low)}, the local store address of the list, is not a multiple of {LIST_ENTRY}"
    yield from within_store("the list at EAL", asked.low, asked.size, owner)


def of_signal(asked: Asked, owner: Owner) -> Rules:
    yield asked.size != SIGNAL, "size", f"size is {asked.size} and must be {SIGNAL}"
    yield asked.lsa % SIGNAL != 0, "alignment", f"LSA {owner.local(asked.lsa)} is not a multiple of {SIGNAL}"
    yield from within_store("LSA", asked.lsa, SIGNAL, owner)
    yield asked.low > MOST_REGISTER, "memory", f"EAL 0x{asked.low:x} is not the number of a signal register: it is greater than {MOST_REGISTER}"


def of_line(asked: Asked, owner: Owner) -> Rules:
    for what, at in ((f"LSA {owner.local(asked.lsa)}", asked.lsa), (f"EAL {owner.remote(asked.low)}", asked.low)):
        yield at % MEMORY_LINE != 0, "alignment", f"{what} is not a multiple of {MEMORY_LINE}"
    yield from within_store("LSA", asked.lsa, MEMORY_LINE, owner)
    yield from within_memory("EAL", asked.low, MEMORY_LINE, owner)


def of_barrier(asked: Asked, owner: Owner) -> Rules:
    return iter(())


ATOMIC = ("GETLLAR", "PUTLLC", "PUTLLUC")  # which have no tag
OTHERS: Dict[str, Callable[[Asked, Owner], Rules]] = {"BARRIER": of_barrier, "PUTQLLUC": of_line, **dict.fromkeys(ATOMIC, of_line)}
NAMES_OF_COMMANDS = {opcode: name[len("MFC_"):-len("_CMD")] for name, opcode in COMMANDS.items()}


def rules_of(name: str) -> Callable[[Asked, Owner], Rules]:
    """The rules of a command but for those of its tag and of EAH."""
    if name in OTHERS:
        return OTHERS[name]
    if name.startswith("SNDSIG"):
        return of_signal
    return of_list if name.startswith(("PUTL", "GETL")) else of_transfer


def command_rules(name: str, asked: Asked, owner: Owner) -> Rules:
    """All rules of a command, in the order in which they are tested."""
    yield name not in ATOMIC and asked.tag > MOST_TAG, "tag", f"tag {asked.tag} is greater than {MOST_TAG}"
    yield from rules_of(name)(asked, owner)
    yield name != "BARRIER" and asked.high != 0, "high", f"EAH is 0x{asked.high:x} and must be 0"


def broken_by_command(opcode: int, asked: Asked, owner: Owner) -> Broken:
    """What a command breaks; None where it breaks nothing."""
    name = NAMES_OF_COMMANDS.get(opcode & LOW_HALF)
    if name is None:
        return "opcode", f"0x{opcode & LOW_HALF:x} is not the opcode of a command"
    return first_broken(command_rules(name, asked, owner))


def broken_by_element(place: int, ea: int, size: int, owner: Owner) -> Broken:
    """What an element of a list breaks that is the next to come at a place in the store; None where it breaks nothing."""
    ls = place + ea % WHOLE if size < WHOLE else place
    return first_broken(transfer_rules("its local store address", ls, "its effective address", ea, size, owner))


def broken_by_channel(word: int) -> str:
    """Why a processor can't execute an instruction of a channel."""
    channel, opcode = channel_of(word) or 0, word >> 21
    if channel in ABSENT:
        return f"channel {channel} ({ABSENT[channel]}) is not supported: {ABSENT_NAMES[ABSENT[channel].lower()]}"
    if channel not in NAMES:
        return f"there is no channel {channel}"
    other, done = ("written", "read") if opcode == READ else ("read", "written")
    return f"{channel_name(channel)} can only be {other} and counted, not {done}"
