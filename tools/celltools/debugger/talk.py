"""Reads a debugger's commands, from a terminal or from a script, and prints its answers."""
import os
import sys
from typing import TYPE_CHECKING, Callable, Iterable, Iterator, List, Optional, Sequence

from celltools.common.ending import fault_words
from celltools.common.texts import decoded, say
from celltools.debugger.grammar import WIDTHS
from celltools.debugger.help import COMMANDS
from celltools.debugger.places import Wrong
from celltools.debugger.things import KINDS
from celltools.run.runs import Refused
from celltools.source.channels import NAMES

if TYPE_CHECKING:
    from celltools.debugger.debugger import Debugger

MOST_SCRIPT_LINE = 100_000  # bytes
REPEATED = {"step", "next", "back", "reverse", "last", "s", "n"}  # commands that an empty line at a terminal repeats
DELIMITERS = " \t"


def words_to_complete(debugger: "Debugger") -> List[str]:
    """What may stand in a command."""
    labels = {label for of_one in debugger.sites.labels for label in of_one}
    paths = {str(site.file) for sites in debugger.sites.of_processor for site in sites.values()}
    files = {f"{name}:" for path in paths for name in (path, os.path.basename(path))}
    actors = [f"{kind}{spe}" for spe in range(debugger.run.spes) for kind in "xm"] + ["h"]
    return sorted({*labels, *files, *actors, *(f"${number}" for number in range(128)), *NAMES.values(), *KINDS, *WIDTHS, "mem", "ls", "pc", "if", "as"})


def completer(debugger: "Debugger", position: Callable[[], int]) -> Callable[[str, int], Optional[str]]:
    """What completes the word that is being typed, which begins at a position: a command where it is the first."""
    others = words_to_complete(debugger)

    def complete(text: str, number: int) -> Optional[str]:
        choices = others if position() else list(COMMANDS)
        return [*(word for word in choices if word.startswith(text)), None][number]

    return complete


def prepare_terminal(debugger: "Debugger") -> None:
    """Lets Python's own line editing complete words and keep a history, where it is there."""
    try:
        import readline
    except ImportError:
        return
    readline.set_completer_delims(DELIMITERS)
    readline.set_completer(completer(debugger, readline.get_begidx))
    readline.parse_and_bind("tab: complete")


def typed(debugger: "Debugger", read: Callable[[str], str] = input) -> Iterator[str]:
    """The lines of a terminal; an empty one repeats a step. `read` shows a prompt and reads a line."""
    before, is_warned = "", False
    while True:
        try:
            line = read(debugger.prompt())
        except EOFError:
            print()
            return
        except KeyboardInterrupt:
            print()
            if is_warned or not debugger.run.is_unkept:
                return
            is_warned = True
            print("unsaved steps would be lost: `record FILE` saves them; Ctrl-C again, or the end of input, ends the session")
            continue
        is_warned = False
        if line.strip():
            before = line
        elif not before.split() or before.split()[0] not in REPEATED:
            continue
        yield before


def given(debugger: "Debugger") -> Iterator[str]:
    """The lines of a script, which are printed as they come."""
    for line in iter(read_line, ""):
        say(f"{debugger.prompt()}{line.rstrip()}")
        yield line


def read_line() -> str:
    """The next line of standard input; Refused where it is no script."""
    line = sys.stdin.buffer.readline(MOST_SCRIPT_LINE + 1)
    if len(line) > MOST_SCRIPT_LINE:
        raise Refused(f"standard input has a line of more than {MOST_SCRIPT_LINE} bytes, so it is not a script of commands")
    return decoded(line)


def answered(debugger: "Debugger", line: str) -> bool:
    """Prints the answer to a line, and says whether it was right. Whatever a command meets, the session goes on: its steps are worth more than the command."""
    is_right = False
    said: Sequence[object] = []
    try:
        said = debugger.obey(line)
        is_right = True
    except (Wrong, Refused) as why:
        said = [why]
    except OSError as why:
        said = [fault_words(why)]
    except Exception as why:  # a fault of the debugger itself
        said = [f"internal error ({type(why).__name__}: {why}); no steps are lost: `record FILE` saves them"]
    say(*said)
    sys.stdout.flush()
    return is_right


def talk(debugger: "Debugger", said: Iterable[str] = ()) -> int:
    """A session, with its exit status, which begins by saying these lines. Refused where standard input is no script."""
    is_terminal = sys.stdin.isatty()
    status = 0
    say(*said)
    if is_terminal:
        print("`help` lists the commands")
        answered(debugger, "where")
        prepare_terminal(debugger)
    for line in typed(debugger) if is_terminal else given(debugger):
        try:
            status |= not answered(debugger, line)
        except KeyboardInterrupt:
            print(f"interrupted after {debugger.run.place} steps", flush=True)
            if not is_terminal:
                return 130
        if debugger.is_over:
            break
    return 0 if is_terminal else status
