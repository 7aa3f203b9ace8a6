"""The sources of the suite of rare bugs, put together from pieces such as a pause, an atomic update or a lock."""
from typing import List, Optional, Union

LINE = 128  # bytes of a line of main memory
COMMANDS = {"GET": 0x40, "GETL": 0x44, "SNDSIG": 0xA0, "PUTQLLUC": 0xB8, "GETLLAR": 0xD0, "PUTLLC": 0xB4, "PUTLLUC": 0xB0}
ENDING = ("quit:", "\tstop 1", "bad:", "\tstop 0x0bad")  # of every source, which goes to `bad` if its bug has shown
BUFFERS = ("\t.data", "\t.align 7", "line:", "\t.space 128", "block:", "\t.space 128", "blocks:", "\t.space 2048")


class Source:
    """A source in the making: each method adds instructions, and returns the source.

    The methods use $3 to $9 for the operands of commands, $6 for the atomic status (0 if a PUTLLC stored), $10 for word 0 of the line fetched last, $11 and $12
    for a word to be stored, and $99 to count steps. The other registers belong to the program. The local store has the buffers `line` and `block`, of a line
    each, and `blocks`, of sixteen.
    """

    def __init__(self) -> None:
        self.lines: List[str] = []
        self.data: List[str] = []
        self.labels = 0

    def text(self) -> str:
        return "\n".join(["\t.text", "_start:", *self.lines, *ENDING, *BUFFERS, *self.data]) + "\n"

    def new_label(self) -> str:
        """A label that this source doesn't have yet."""
        self.labels += 1
        return f"label{self.labels}"

    def label(self, name: str) -> "Source":
        self.lines.append(f"{name}:")
        return self

    def add(self, *instructions: str) -> "Source":
        self.lines += [f"\t{instruction}" for instruction in instructions]
        return self

    # ---- steps that touch nothing

    def work(self, steps: int) -> "Source":
        """A loop of about `steps` instructions; nothing if there are to be none."""
        if steps <= 0:
            return self
        again = self.new_label()
        return self.add(f"ila $99,{max(1, steps // 2)}").label(again).add("ai $99,$99,-1", f"brnz $99,{again}")

    # ---- commands

    def parameters(self, address: Union[int, str], buffer: str) -> "Source":
        """The addresses of a command: its buffer in the local store, and its effective address (of a list command, the label of the list)."""
        return self.add(f"ila $3,{buffer}", "wrch $ch16,$3", f"ila $4,{address}", "wrch $ch18,$4")

    def size(self, size: int) -> "Source":
        return self.add(f"il $5,{size}", "wrch $ch19,$5")

    def choose(self, command: str) -> "Source":
        """Chooses the queued command that `queue` issues, until the next choice."""
        return self.add(f"il $9,{COMMANDS[command]:#x}  # {command}")

    def queue(self, address: Union[int, str], buffer: str, tag: Optional[int] = None) -> "Source":
        """Issues the chosen command with a tag, or with that of the command before (0 at first)."""
        self.parameters(address, buffer)
        if tag is not None:
            self.add(f"il $8,{tag}", "wrch $ch20,$8")
        return self.add("wrch $ch21,$9")

    def wait_for_tags(self, mask: int) -> "Source":
        """Waits until the commands of some tags are complete."""
        return self.add(f"il $3,{mask}", "wrch $ch22,$3", "il $3,2", "wrch $ch23,$3", "rdch $3,$ch24")

    def atomic(self, command: str) -> "Source":
        return self.add(f"il $5,{COMMANDS[command]:#x}  # {command}", "wrch $ch21,$5", "rdch $6,$ch27")

    # ---- lines of main memory

    def fetch(self, address: int, buffer: str = "line") -> "Source":
        """A GETLLAR of a line; its first word is in $10."""
        return self.parameters(address, buffer).atomic("GETLLAR").add(f"lqa $10,{buffer}")

    def store(self, address: int, value: int) -> "Source":
        """A PUTLLUC of a line with this first word."""
        return self.parameters(address, "line").add(f"ila $11,{value}", "stqa $11,line").atomic("PUTLLUC")

    def update(self, address: int, *instructions: str) -> "Source":
        """Fetches a line, changes it by the instructions, and stores it; again as long as the PUTLLC loses."""
        again = self.new_label()
        return self.label(again).fetch(address).add(*instructions).atomic("PUTLLC").add(f"brnz $6,{again}")

    def increase(self, address: int, amount: int = 1) -> "Source":
        """Adds to a counter, whose new value is in $12."""
        return self.update(address, f"ai $12,$10,{amount}", "stqa $12,line")

    def spin_until_set(self, address: int) -> "Source":
        """Fetches a line until its first word isn't 0."""
        spin = self.new_label()
        return self.label(spin).fetch(address).add(f"brz $10,{spin}")

    def lock(self, address: int) -> "Source":
        """Takes a spin lock."""
        spin = self.new_label()
        return self.label(spin).fetch(address).add(f"brnz $10,{spin}", "il $11,1", "stqa $11,line").atomic("PUTLLC").add(f"brnz $6,{spin}")

    def unlock(self, address: int) -> "Source":
        return self.store(address, 0)
