"""Sequences of channel instructions of one SPU alone, by the public standard (CBEA) and the project's choices for it (docs/reference/machine.md): tests/vectors
compares vectors with it. It shares no code with the product. Commands are done at once, since a sequence waits for each."""
from typing import Dict, List, Optional

LINE = 128
LSA, EAL, SIZE, TAG, COMMAND, MASK, UPDATE, STATUS, ATOMIC = 16, 18, 19, 20, 21, 22, 23, 24, 27
EVENT_MASK, READ_EVENT_MASK, READ_MASK = 1, 11, 12
SIGNALS, MAILBOXES = (3, 4), (28, 30)
FAILED, DONE_UNCONDITIONALLY, DONE_RESERVED = 1, 2, 4  # atomic statuses
STORE = 0x40000


class Fault(Exception):
    """The kind of a DMA fault."""


class Model:
    """A processor with its store, main memory, parameters and channels."""

    def __init__(self, spe: int, memory: int) -> None:
        self.spe, self.store, self.memory = spe, bytearray(STORE), bytearray(memory)
        self.written = dict.fromkeys(range(32), 0)
        self.atomic = 0
        self.reservation: Optional[int] = None
        self.signals, self.full = [0, 0], dict.fromkeys(MAILBOXES, 0)

    def write(self, channel: int, value: int) -> None:
        self.written[channel] = value
        if channel == COMMAND:
            self.issue(value & 0xFFFF)
        elif channel in MAILBOXES:
            self.full[channel] = 1

    def read(self, channel: int) -> int:
        if channel in SIGNALS:
            value, self.signals[channel - SIGNALS[0]] = self.signals[channel - SIGNALS[0]], 0
            return value
        return {STATUS: self.written[MASK], ATOMIC: self.atomic, READ_MASK: self.written[MASK], READ_EVENT_MASK: self.written[EVENT_MASK]}[channel]

    def count(self, channel: int) -> int:
        return 1 - self.full[channel] if channel in MAILBOXES else 1

    # ---- commands

    def issue(self, opcode: int) -> None:
        local, effective, size = self.written[LSA], self.written[EAL], self.written[SIZE]
        if opcode in (0xD0, 0xB4, 0xB0):
            return self.do_atomic(opcode, local, effective)
        if self.written[TAG] > 31:
            raise Fault("tag")
        if opcode == 0xB8:
            self.store_line(local, effective)
        elif opcode == 0xA0:
            self.signal(effective, int.from_bytes(self.store[local:local + 4], "big"))
        elif opcode & 4:
            self.do_list(opcode < 0x40, local, effective, size)
        else:
            check(local, effective, size)
            self.copy(opcode < 0x40, local, effective, size)

    def copy(self, is_put: bool, local: int, effective: int, size: int) -> None:
        if is_put:
            self.memory[effective:effective + size] = self.store[local:local + size]
        else:
            self.store[local:local + size] = self.memory[effective:effective + size]

    def do_list(self, is_put: bool, local: int, at: int, size: int) -> None:
        """Each element of 16 bytes or more follows the last one."""
        for place in range(at, at + size, 8):
            count, effective = (int.from_bytes(self.store[begin:begin + 4], "big") for begin in (place, place + 4))
            self.copy(is_put, local, effective, count)
            local += count

    def signal(self, number: int, value: int) -> None:
        if number // 2 == self.spe:
            self.signals[number % 2] = value

    def do_atomic(self, opcode: int, local: int, effective: int) -> None:
        """The three atomic commands, each on a line."""
        if opcode == 0xD0:
            self.store[local:local + LINE] = self.memory[effective:effective + LINE]
            self.reservation, self.atomic = effective, DONE_RESERVED
            return
        is_done = opcode == 0xB0 or self.reservation == effective
        self.atomic = DONE_UNCONDITIONALLY if opcode == 0xB0 else 0 if is_done else FAILED
        if opcode == 0xB4:
            self.reservation = None
        if is_done:
            self.store_line(local, effective)

    def store_line(self, local: int, effective: int) -> None:
        """A store to a line ends a reservation of it, even the own one: that is the project's choice."""
        self.memory[effective:effective + LINE] = self.store[local:local + LINE]
        self.reservation = None if self.reservation == effective else self.reservation


def check(local: int, effective: int, size: int) -> None:
    """The rules of a PUT or GET."""
    if size not in (0, 1, 2, 4, 8) and (size % 16 or size > 16384):
        raise Fault("size")
    if 0 < size < 16 and (effective % size or local % 16 != effective % 16) or size >= 16 and (local % 16 or effective % 16):
        raise Fault("alignment")


def faults_of(case: Dict[str, object], memory: int) -> List[str]:
    """How a vector differs from this model."""
    before, after = case["before"], case["after"]
    assert isinstance(before, dict) and isinstance(after, dict) and isinstance(case["steps"], list)
    model = Model(before["spe"], memory)
    for name, space in (("ls", model.store), ("mem", model.memory)):
        for at, text in before[name]:
            space[at:at + len(text) // 2] = bytes.fromhex(text)
    status, found = "stopped 0x0000", []
    try:
        for name, channel, value in case["steps"]:
            if name == "wrch":
                model.write(channel, value)
            elif (answer := model.read(channel) if name == "rdch" else model.count(channel)) != value:
                found.append(f"{name} {channel} is {value}, and the model has {answer}")
    except Fault as why:
        status = f"dmafault {why}"
    found += [f"the status is {after['status']}, and the model has {status}"] * (after["status"] != status)
    for name, space in (("ls", model.store), ("mem", model.memory)):
        found += [f"{name} at 0x{at:x} differs from the model" for at, text in after[name] if space[at:at + len(text) // 2].hex() != text]
    return found
