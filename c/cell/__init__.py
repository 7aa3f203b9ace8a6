"""Runs programs of the Cell's SPUs, and finds their races, in this process: `cell` and its hunts as calls.

    import cell

    files = cell.files_of("examples/races/mail_race.cell")
    hunt = cell.hunt("examples/races/mail_race.cell", files, runs=40)
    print(hunt.races[0].first, hunt.races[0].second)

Each call takes the files by their names, as texts or bytes, and reads none of the disk; `files_of` reads a machine file and its sources. A call may be made on
any thread, also while others are. A refusal is an exception, with the file and the line where it has them: all are a `CellError`.
"""
from .answers import Count, Finding, Hunt, Image, Lines, Processor, Race, Run, Segment, Shown, Site, States, Step, Trace, Verdict
from .calls import assemble, check, debug, disassemble, files_of, hunt, permute, run, trace
from .errors import CellError, Faulty, LibraryMissing, Misused, NoMemory, NoRun, NotRead, Racy
from .library import Answer, ask
from .version import __version__

__all__ = [
    "Answer", "CellError", "Count", "Faulty", "Finding", "Hunt", "Image", "LibraryMissing", "Lines", "Misused", "NoMemory", "NoRun", "NotRead", "Processor", "Race",
    "Racy", "Run", "Segment", "Shown", "Site", "States", "Step", "Trace", "Verdict", "__version__", "ask", "assemble", "check", "debug", "disassemble", "files_of",
    "hunt", "permute", "run", "trace",
]
