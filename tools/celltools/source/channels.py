"""The names that spu_mfcio.h and GNU as have for channels, commands and events of this machine, and the channels that instructions name."""
import re
from typing import Optional

NAMES = {
    0: "SPU_RdEventStat", 1: "SPU_WrEventMask", 2: "SPU_WrEventAck", 3: "SPU_RdSigNotify1", 4: "SPU_RdSigNotify2", 11: "SPU_RdEventMask",
    12: "MFC_RdTagMask", 16: "MFC_LSA", 17: "MFC_EAH", 18: "MFC_EAL", 19: "MFC_Size", 20: "MFC_TagID", 21: "MFC_Cmd", 22: "MFC_WrTagMask",
    23: "MFC_WrTagUpdate", 24: "MFC_RdTagStat", 25: "MFC_RdListStallStat", 26: "MFC_WrListStallAck", 27: "MFC_RdAtomicStat", 28: "SPU_WrOutMbox",
    29: "SPU_RdInMbox", 30: "SPU_WrOutIntrMbox",
}  # fmt: skip
ABSENT = {7: "SPU_WrDec", 8: "SPU_RdDec", 9: "MFC_WrMSSyncReq", 13: "SPU_RdMachStat", 14: "SPU_WrSRR0", 15: "SPU_RdSRR0"}  # of the Cell, and not here
EVENT_STATUS, EVENT_MASK_WRITE, EVENT_ACK, EVENT_MASK_READ, COMMAND = 0, 1, 2, 11, 21
SIGNAL_REGISTERS = {3: 1, 4: 2}  # by the channels that read them

COMMANDS = {
    "MFC_PUT_CMD": 0x20, "MFC_PUTB_CMD": 0x21, "MFC_PUTF_CMD": 0x22, "MFC_PUTL_CMD": 0x24, "MFC_PUTLB_CMD": 0x25, "MFC_PUTLF_CMD": 0x26,
    "MFC_GET_CMD": 0x40, "MFC_GETB_CMD": 0x41, "MFC_GETF_CMD": 0x42, "MFC_GETL_CMD": 0x44, "MFC_GETLB_CMD": 0x45, "MFC_GETLF_CMD": 0x46,
    "MFC_SNDSIG_CMD": 0xA0, "MFC_SNDSIGB_CMD": 0xA1, "MFC_SNDSIGF_CMD": 0xA2, "MFC_PUTLLUC_CMD": 0xB0, "MFC_PUTLLC_CMD": 0xB4,
    "MFC_PUTQLLUC_CMD": 0xB8, "MFC_BARRIER_CMD": 0xC0, "MFC_GETLLAR_CMD": 0xD0,
}  # fmt: skip
ATOMIC = {COMMANDS[f"MFC_{name}_CMD"] for name in ("GETLLAR", "PUTLLC", "PUTLLUC")}  # that have a slot in place of the queue
EVENTS = {
    "MFC_LLR_LOST_EVENT": 0x400, "MFC_SIGNAL_NOTIFY_1_EVENT": 0x200, "MFC_SIGNAL_NOTIFY_2_EVENT": 0x100, "MFC_OUT_MBOX_AVAILABLE_EVENT": 0x80,
    "MFC_OUT_INTR_MBOX_AVAILABLE_EVENT": 0x40, "MFC_IN_MBOX_AVAILABLE_EVENT": 0x10, "MFC_COMMAND_QUEUE_AVAILABLE_EVENT": 0x8,
    "MFC_LIST_STALL_NOTIFY_EVENT": 0x2, "MFC_TAG_STATUS_UPDATE_EVENT": 0x1,
}  # fmt: skip
VALUES = {**COMMANDS, **EVENTS}  # of the names that stand for numbers
EVENT_WORDS = {
    0x400: "lost reservation", 0x200: "signal 1", 0x100: "signal 2", 0x80: "outbound mailbox", 0x40: "outbound interrupt mailbox",
    0x10: "inbound mailbox", 0x8: "command queue", 0x2: "list stall", 0x1: "tag status",
}  # fmt: skip

MOST = 127  # the greatest number of a channel
OF_NAMES = {name.lower(): number for number, name in NAMES.items()}
NUMBERED = re.compile(r"(?:ch|\$(?:ch)?)0*(\d{1,3})", re.I | re.A)
READ, COUNT, WRITE = 0x00D, 0x00F, 0x10D  # the opcodes of `rdch`, `rchcnt` and `wrch`


def events_in(bits: int) -> str:
    """A set of events in words."""
    named = [words for bit, words in EVENT_WORDS.items() if bits & bit]
    return f"0x{bits:08x} ({', '.join(named) or 'no event'})"


def channel_named(word: str) -> Optional[int]:
    """The number of a channel by a name of it, as $ch29 or SPU_RdInMbox, in either case and also without the $; None for any other word."""
    found = NUMBERED.fullmatch(word)
    number = int(found[1]) if found else OF_NAMES.get(word.removeprefix("$").lower())
    return number if number is not None and number <= MOST else None


def channel_name(number: int) -> str:
    """The number of a channel, with its name where it has one."""
    return f"channel {number}" + (f" ({NAMES[number]})" if number in NAMES else "")


def channel_of(word: int) -> Optional[int]:
    """The channel that an instruction reads, counts or writes, if it does."""
    return word >> 7 & MOST if word >> 21 in (READ, COUNT, WRITE) else None


def may_wait(word: int) -> bool:
    """Whether an instruction waits where its channel isn't ready."""
    return word >> 21 in (READ, WRITE)
