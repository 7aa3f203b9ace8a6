"""The forms and options of ./cell, ./hunt and the programs of tools/: completions and man pages are made of this table.

The words are those of each program's usage text, which has the meanings; tests/completions compares the two, in both directions.
"""
import dataclasses
from typing import Mapping, Tuple

# The kinds of words: a shell completes them by files of these kinds, and numbers and other texts by nothing.
MACHINE, SOURCE, FILE, FOLDER, TEXT = "machine", "source", "file", "folder", "text"
KINDS: Mapping[str, str] = {
    "MACHINE": MACHINE, "M": MACHINE, "SOURCE": SOURCE, "RECORD": FILE, "SCRIPT": FILE, "FILE": FILE, "OUT": FILE, "NAME": FILE, "WHOLE.s": SOURCE,
    "DIR": FOLDER, "FOLDER": FOLDER, "CHOICES": FILE, "LINE": TEXT, "WORD": FILE, "N": TEXT, "S": TEXT, "K": TEXT, "I": TEXT, "J": TEXT,
    "RUNS": TEXT, "SEED": TEXT, "STEP": TEXT, "STEPS": TEXT, "NUMBER": TEXT, "CHECKSUM": TEXT, "WHAT": TEXT,
}  # fmt: skip
# Words of a form that stand for one of several.
ONE_OF: Mapping[str, Tuple[str, ...]] = {"PROGRAM": ("cell_cli", "hunt", "run_trace")}
OF_EACH = ("-h, --help", "--version", "--")
OF_HUNT_RUN = ("--run K", "--seed S")


@dataclasses.dataclass(frozen=True)
class Program:
    """A program: `usage` has the lines of its usage text after its path, and `options` the options with their values. `tails` are forms that the usage text
    leaves to another program. If the options are first words, nothing else may be an option."""
    path: str
    summary: str
    usage: Tuple[str, ...]
    options: Tuple[str, ...] = OF_EACH
    tails: Tuple[str, ...] = ()
    are_first: bool = False

    @property
    def name(self) -> str:
        return self.path.rpartition("/")[2]


# The forms of run_trace, as `tools/launch run_trace` prints them.
OF_RUN_TRACE = ("alone M", "choose M CHOICES", "(effects|log|before|states) M RECORD", "(before|states) M RECORD NUMBER", "go M RECORD STEPS CHOICES", "lines SOURCE",
                "plan M", "time M RECORD")

PROGRAMS = (
    Program("./cell", "runs programs for the SPUs of the Cell processor, and finds data races in their runs",
            ("run MACHINE", "check MACHINE RECORD", "asm SOURCE", "gen N", "debug MACHINE SCRIPT", "permute MACHINE RECORD N", "prove | --version | --help"),
            ("-h, --help", "--version"), are_first=True),
    Program("./hunt", "runs a machine many times in random schedules, and reports what went wrong",
            ("MACHINE [RUNS [SEED]] [OPTION..]", "MACHINE each [RUNS [SEED]] [--runs N] [--seed S] [--from K]", "MACHINE record K [SEED] [--seed S]"),
            ("--runs N", "--time S", "--seed S", "--from K", "--jobs N", "--expect FILE", "--pass FILE", "--warn WHAT", "--until FILE", "--all", "--tools DIR", "--json", *OF_EACH)),
    Program("tools/race", "explains the first data race of a record, and what would order it",
            ("[--race I J] MACHINE RECORD", "[--race I J] --run K [--seed S] MACHINE"), ("--race I J", *OF_HUNT_RUN, *OF_EACH)),
    Program("tools/picture", "draws a record as a page",
            ("[--race I J] [--whole] MACHINE RECORD >PAGE.html", "[--race I J] [--whole] --run K [--seed S] MACHINE >PAGE.html"),
            ("--race I J", "--whole", *OF_HUNT_RUN, *OF_EACH)),
    Program("tools/witness", "writes both orders of a race as short records",
            ("[-o NAME] [--force] MACHINE RECORD", "[-o NAME] [--force] --run K [--seed S] MACHINE"), ("-o NAME", "--force", *OF_HUNT_RUN, *OF_EACH)),
    Program("tools/debug", "goes through a run, forwards and backwards",
            ("MACHINE", "MACHINE RECORD [STEP]", "--run K [--seed S] MACHINE [STEP]"), (*OF_HUNT_RUN, *OF_EACH)),
    Program("tools/states", "prints the states after some steps of a record",
            ("MACHINE RECORD [STEPS]", "--run K [--seed S] MACHINE [STEPS]"), (*OF_HUNT_RUN, *OF_EACH)),
    Program("tools/log", "prints what each step of a record changed",
            ("MACHINE RECORD", "--run K [--seed S] MACHINE"), (*OF_HUNT_RUN, *OF_EACH)),
    Program("tools/explain", "explains all faulty lines of a file", ("FILE..",)),
    Program("tools/listing", "prints a source with its addresses and words", ("SOURCE",)),
    Program("tools/from_gas", "converts sources of GNU as", ("[-o WHOLE.s] SOURCE..",), ("-o WHOLE.s", *OF_EACH)),
    Program("tools/hunts", "adds up parts of hunts", ("[--all | --json] [--warn WHAT] [--sarif OUT] FILE..", "--missing N FILE.."),
            ("--all", "--json", "--warn WHAT", "--sarif OUT", "--missing N", *OF_EACH)),
    Program("tools/vectors", "writes test vectors for emulators",
            ("[--cases N] [--seed S] [--jobs N] FOLDER [NAME..]", "[--cases N] [--seed S] [--jobs N] --archive FILE"),
            ("--cases N", "--seed S", "--jobs N", "--archive FILE", *OF_EACH)),
    Program("tools/launch", "runs, builds and proves the programs, for ./cell, ./hunt and the tools",
            ("PROGRAM [WORD..]", "--hints PROGRAM [WORD..]", "--build", "--prove", "--compare", "--version", "--checksum", "--built CHECKSUM", "--help"),
            ("-h, --help", "--version", "--hints", "--build", "--prove", "--compare", "--checksum", "--built CHECKSUM"),
            tuple(f"run_trace {form}" for form in OF_RUN_TRACE), are_first=True),
    Program("tools/sources", "prints the sources that a machine file names", ("MACHINE",)),
    Program("tools/site_lines", "makes a part of a hunt of the program's output, for ./hunt",
            ("--take FOLDER MACHINE [FILE..]", "--json [--taken FOLDER] MACHINE [FILE..] <LINES"), ("--take FOLDER", "--json", "--taken FOLDER", *OF_EACH)),
    Program("tools/hint", "prints the file, the line and a hint after a refusal, for ./cell and ./hunt", ("cell_cli LINE WORD..", "hunt LINE WORD..")),
)  # fmt: skip
