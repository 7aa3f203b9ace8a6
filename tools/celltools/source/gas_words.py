"""The words of GNU as for SPUs: its directives, in any case and also without their dot, its registers, and what it has that `cell` lacks, with the way round."""
import re
from typing import Optional

# Directives that say nothing about the bytes of a program.
DROPPED = set(
    ".file .global .globl .type .size .ident .local .extern .weak .loc .hidden .internal .protected .title .version"
    " .eject .psize .list .nolist .sbttl .symver .debug .func .endfunc .page .ln .name .lflags .format .noformat".split()
)
LAZY = ".eqv"  # its value is worked out anew at each use
SETS = (".set", ".equ", ".equiv", ".def", LAZY)
REPEATING = (".rept", ".rep", ".irp", ".irep", ".irpc", ".irepc")
OPENING = {".macro": ".endm", **dict.fromkeys(REPEATING, ".endr")}  # each with what ends it
CLOSING = set(OPENING.values())
CONDITIONAL = re.compile(r"\.if\w*")
OF_CONDITIONALS = {".else", ".elseif", ".endif"}
ALIGNING = {".align": 1, ".p2align": 1, ".balign": 1, ".p2alignw": 2, ".p2alignl": 4, ".balignw": 2, ".balignl": 4}  # the bytes of what each fills with
# Without its dot a directive is one too, but for those that are instructions: `set`, `eqv`, `nop`.
DIRECTIVES = DROPPED | CLOSING | OF_CONDITIONALS | OPENING.keys() | ALIGNING.keys() | set(
    ".text .data .bss .section .pushsection .popsection .previous .byte .short .hword .half .2byte .long .word .int .4byte .quad .8byte .ascii .asciz"
    " .string .equ .equiv .def .comm .lcomm .space .skip .zero .fill .org .end .include .incbin .float .single .double .if .ifdef .ifndef .ifeq .ifne .ifgt"
    " .ifge .iflt .ifle .octa .uleb128 .sleb128 .brinfo".split())

CPP = "and have `cpp -x assembler-with-cpp` expand it, as docs/reference/assembler.md shows"
FLOATING_NUMBERS = "there are no floating-point numbers in this language: write the bits, as in `.long 0x3f800000` for the float 1.0"
ABSENT_DIRECTIVES = {
    ".macro": f"there are no macros in this language: write a `#define`, {CPP}",
    ".include": f"no file is included in this language: write `#include`, {CPP}",
    ".incbin": "no file is included in this language: write its bytes as `.byte` or `.long`, or place them with `bytes` in the machine file",
    ".brinfo": "no branch has a priority here: leave the line out, it changes no result",
    ".octa": "no number has 16 bytes in this language: write two `.quad`, the upper half first",
    **dict.fromkeys(REPEATING, "there are no repetitions in this language: write the lines out, or place bytes with `.fill`"),
    **dict.fromkeys((".float", ".single", ".double"), FLOATING_NUMBERS),
    **dict.fromkeys((".uleb128", ".sleb128"), "there are no numbers of variable length in this language: compile without `-g`, or write the bytes"),
}

REGISTERS = {"lr": "$lr", "sp": "$sp", "rp": "$0", "fp": "$127"}
LAST_REGISTER = 127

FLOATING = set("fa fs fm fma fms fnms fi fceq fcgt fcmeq fcmgt frest frsqest csflt cuflt cflts cfltu fesd frds fscrrd fscrwr dfa dfs dfm dfma dfms dfnma dfnms"
               " dfceq dfcgt dfcmeq dfcmgt dftsv".split())
INTERRUPTING = re.compile(r"iret[de]?|bisled[de]?|bi(?:sl|nz|hz|hnz|z)?[de]")
DECREMENTER = "there is no decrementer: count turns of a loop instead"
NO_INTERRUPTS = "there are no interrupts: read the event status (`rdch` of SPU_RdEventStat) where the program can take an event"
ABSENT_INSTRUCTIONS = {
    "mfspr": "there are no special-purpose registers: leave the instruction out",
    "mtspr": "there are no special-purpose registers: leave the instruction out",
    "stopd": "there is no `stopd`: use `stop CODE`",
    "syscall": "there is no `syscall`: use `stop CODE`, and look at the code behind the run",
}
# Channels, events and commands of the Cell processor that this machine lacks, in small letters.
ABSENT_NAMES = {
    **dict.fromkeys(("spu_wrdec", "spu_rddec", "mfc_decrementer_event"), DECREMENTER),
    **dict.fromkeys(("spu_rdmachstat", "spu_wrsrr0", "spu_rdsrr0"), NO_INTERRUPTS),
    **dict.fromkeys(("mfc_wrmssyncreq", "mfc_multi_src_sync_event"), "there is no multisource synchronization: wait for the tag groups of the transfers instead"),
    "mfc_priv_attn_event": "there is no privileged attention: leave the bit out of the mask",
    **dict.fromkeys(("mfc_sync_cmd", "mfc_mfcsync_cmd", "mfc_eieio_cmd", "mfc_mfceieio_cmd"),
                    "there is no such command: a barrier (MFC_BARRIER_CMD) orders the commands of the queue"),
    **dict.fromkeys((f"mfc_{name}_cmd" for name in ("putr", "putrb", "putrf", "putrl", "putrlb", "putrlf")),
                    "there is no PUT with a result hint: use the command without the `R`, which moves the same bytes"),
    **dict.fromkeys((f"mfc_{name}_cmd" for name in ("sdcrt", "sdcrtst", "sdcrz", "sdcrst", "sdcrf")), "there is no cache: leave the command out"),
}


def by_its_case(word: str) -> str:
    """A directive with its dot and in small letters; every other word as it is."""
    small = word.lower()
    if small.startswith("."):
        return small
    return f".{small}" if f".{small}" in DIRECTIVES else word


def why_no_directive(word: str) -> str:
    """What a directive is that can't be rewritten, and the way round."""
    if CONDITIONAL.fullmatch(word) or word in OF_CONDITIONALS:
        directive = {".else": "else", ".elseif": "elif", ".endif": "endif", ".ifdef": "ifdef", ".ifndef": "ifndef"}.get(word, "if")
        return f"`{word}`: there are no conditionals in this language: write `#{directive}`, {CPP}"
    return f"`{word}`: {ABSENT_DIRECTIVES[word]}" if word in ABSENT_DIRECTIVES else f"`{word}`: this language has no such directive"


def why_no_instruction(word: str) -> str:
    """What a word is that isn't one of the instructions that `cell` has."""
    if word in FLOATING:
        return f"`{word}` is a floating-point instruction, and `cell` has the integer ones alone: compute with integers"
    if INTERRUPTING.fullmatch(word):
        return f"`{word}`: {NO_INTERRUPTS}"
    return f"`{word}`: {ABSENT_INSTRUCTIONS[word]}" if word in ABSENT_INSTRUCTIONS else f"`{word}` is neither an instruction nor a directive"


def why_absent(name: str) -> Optional[str]:
    """What a name of the Cell processor stands for that this machine lacks; None for any other name."""
    why = ABSENT_NAMES.get(name.removeprefix("$").lower())
    return f"`{name}`: {why}" if why else None
