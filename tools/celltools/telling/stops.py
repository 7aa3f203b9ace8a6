"""The stops that are reported: those of SPUs that could have stopped with another code, and of SPUs that ran into zeros."""
import re
from typing import Optional

from celltools.run.machine_state import Spe
from celltools.source.language import STORE
from celltools.source.sites import Site, Sites
from celltools.source.target_registers import STOP

STOPPED = re.compile(r"stopped 0x([0-9a-fA-F]{4})", re.A)  # a status
CODE, OPCODE_AT = 0x3FFF, 21  # the bits of a stop's code, and the first one of its opcode
STATEMENT = re.compile(r"stop\b", re.A)
WORD_BYTES = 4
RAN_INTO_ZEROS = "it ran into zeros: the program has no `stop` here"


def is_stop(site: Optional[Site]) -> bool:
    """Whether a line of a source placed a `stop` instruction; data may have the same word."""
    return site is not None and STATEMENT.match(site.text) is not None


def code_of(spe: Spe) -> Optional[int]:
    """The code with which an SPU stopped; None if it didn't stop."""
    found = STOPPED.fullmatch(spe.status)
    return int(found[1], 16) if found else None


def stop_address(spe: Spe) -> int:
    """The address of the instruction that stopped an SPU, whose PC is the next one."""
    return (spe.pc - WORD_BYTES) % STORE


def stop_word(spe: Spe, sites: Sites) -> int:
    """The word that stopped an SPU. If no line placed it, the word of a `stop` with its code: the other bits of a `stop` do nothing."""
    site, code = sites.of_processor[spe.number].get(stop_address(spe)), code_of(spe) or 0
    return site.word if site and site.word >> OPCODE_AT == STOP and site.word & CODE == code else code


def ran_into_zeros(spe: Spe, sites: Sites) -> bool:
    """Whether an SPU stopped at a word 0 that no `stop` instruction placed."""
    return code_of(spe) == 0 and not is_stop(sites.of_processor[spe.number].get(stop_address(spe)))


def is_open(spe: Spe, sites: Sites) -> bool:
    """Whether the `stop` instructions of an SPU's sources have other codes than the one with which it stopped, so that its run may end with each."""
    code = code_of(spe)
    return code is not None and any(is_stop(site) and site.word & CODE != code for site in sites.of_processor[spe.number].values())


def is_reported(spe: Spe, sites: Sites) -> bool:
    return ran_into_zeros(spe, sites) or is_open(spe, sites)
