"""How runs of a hunt end: which endings are faulty, and of which a part says what the processors waited for or what their faults were."""
from typing import Any, Dict

Json = Dict[str, Any]  # an object as JSON has it, whose members are of any kind

STOPPED, STUCK, SPENT = "AllStopped", "Stuck", "Budget"  # the words that begin an ending
FAULTS = ("badword", "badchannel", "dmafault")
HALTED = "halted"
MOST_SPENT = 3  # ends of runs that spent the budget, of which a part says where the processors were
MOST_EXPLAINED = 8  # other ends that are explained


def end_word(ending: str) -> str:
    return ending.partition(" | ")[0]


def has_fault(ending: str) -> bool:
    return any(word in ending for word in FAULTS)


def has_halt(ending: str) -> bool:
    return HALTED in ending


class Explained:
    """Which ends get words and places of faults: each costs a run, so it is the first few that aren't as they should be."""

    def __init__(self) -> None:
        self.left = {True: MOST_SPENT, False: MOST_EXPLAINED}

    def takes(self, ending: str) -> bool:
        is_spent = ending.startswith(SPENT)
        if ending.startswith(STOPPED) and not has_fault(ending) and not has_halt(ending) or not self.left[is_spent]:
            return False
        self.left[is_spent] -= 1
        return True
