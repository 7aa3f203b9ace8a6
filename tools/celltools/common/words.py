"""The words of command lines, by argparse. The text at a program's head is what --help prints, and what is printed if the program is called without the words
that it requires; after a wrong word, the usage lines of that text are printed."""
import argparse
import os
import re
import subprocess
import sys
from typing import IO, List, NoReturn, Optional, Sequence, Tuple

from celltools.common.repository import LAUNCH, ROOT
from celltools.common.texts import MOST_NUMBER, number_of, say

MISUSED = 2
USAGE = re.compile(r"^Usage: .*(?:\n +.*)*", re.M)
END_OF_OPTIONS = "--"
STANDARD_INPUT, STANDARD_INPUT_FILE = "-", "/dev/stdin"
NEAR = 0.7  # how alike an option has to be that is proposed
OF_EACH = """
Options of every program of this repository:
  -h, --help  print this text
  --version   print the version, and what the programs were proved with
  --          end of the options: a name after it may begin with -
"""
# What argparse says of a wrong word, and what is printed.
MESSAGES = (
    (re.compile(r"argument (-[^:]*): expected (?:one|1) argument"), "option '{0}' requires a value"),
    (re.compile(r"argument (-[^:]*): expected (\d+) arguments"), "option '{0}' requires {1} values"),
    (re.compile(r"argument (-[^:]*): ignored explicit argument .*"), "option '{0}' takes no value"),
    (re.compile(r"argument (-[^:]*): (.*)"), "{0}: {1}"),
    (re.compile(r"argument \w+: (.*)"), "{0}"),
    (re.compile(r"unrecognized arguments: (.*)"), "unexpected argument '{0}'"),
)
REQUIRED = re.compile(r"the following arguments are required: (.*)")


class Words(argparse.ArgumentParser):
    """Reads the words of a program whose head has this text. Options may come anywhere among the words, up to `--`."""

    def __init__(self, text: Optional[str]) -> None:
        super().__init__(prog=os.path.basename(sys.argv[0]), add_help=False, allow_abbrev=False)
        self.text = (text or "").strip() + "\n"
        self.add_argument("-h", "--help", action="help")
        self.add_argument("--version", action="store_true")

    def format_help(self) -> str:
        return self.text + OF_EACH

    def format_usage(self) -> str:
        found = USAGE.search(self.text)
        return f"{found[0]}\n" if found else self.text

    def read(self, words: Sequence[str], least: int = 1) -> argparse.Namespace:
        """Returns what the words ask for. Ends the program with the whole text if there are fewer than `least` words, and with the version if that is asked for."""
        if len(words) < least:
            self.print_help(sys.stderr)
            self.exit(MISUSED)
        before, names = cut_at_end(words)
        asked = self.options_in(before)
        if "--help" not in asked and "-h" not in asked and "--version" in asked:
            raise SystemExit(print_version())
        if [*before, *names].count(STANDARD_INPUT) > 1:
            self.error("standard input can be read only once: give `-` once")
        return self.parse_intermixed_args([*before, *names])

    def options_in(self, words: Sequence[str]) -> List[str]:
        """Returns the options among the words, without their values. Ends the program at one that there isn't."""
        found: List[str] = []
        values = 0  # words that follow as values of an option
        for word in words:
            if values or not word.startswith("-") or word == STANDARD_INPUT:
                values = max(0, values - 1)
                continue
            name = word.partition("=")[0] if word.startswith("--") else word[:2]
            action = self._option_string_actions.get(name)
            if action is None:
                self.error(f"there is no option '{name if word.startswith('--') else word}'{self.meant(name)}")
            found.append(name)
            values = 0 if word != name else 1 if action.nargs is None else action.nargs if isinstance(action.nargs, int) else 0
        return found

    def meant(self, name: str) -> str:
        """Returns a question for the option that a word abbreviates or is most like, as an ending of a sentence; nothing if there is none."""
        import difflib  # which takes a while to load
        options = [option for option in self._option_string_actions if option.startswith("--")]
        known = next((option for option in options if len(name) > len("--") and option.startswith(name)), "")
        known = known or next(iter(difflib.get_close_matches(name, options, 1, NEAR)), "")
        return f", did you mean '{known}'?" if known else ""

    def error(self, message: str) -> NoReturn:
        """Ends the program if the words have none of its forms."""
        for pattern, text in MESSAGES:
            if found := pattern.fullmatch(message):
                message = text.format(*found.groups())
                break
        message = REQUIRED.sub(lambda found: f"missing {found[1].upper()}", message)
        say(f"{self.prog}: {message} ({called()} --help lists the words and options)\n{self.format_usage()}".rstrip("\n"), to=sys.stderr)
        raise SystemExit(MISUSED)

    def _print_message(self, message: str, file: Optional[IO[str]] = None) -> None:
        """Prints as `print` does: argparse would keep silent if nothing can be written."""
        print(message, end="", file=file)


def cut_at_end(words: Sequence[str]) -> Tuple[List[str], List[str]]:
    """Returns the words before `--`, and those after it. One of these that begins with `-` becomes a path, so that it is no option; `-` stays standard input."""
    if END_OF_OPTIONS not in words:
        return [*words], []
    at = words.index(END_OF_OPTIONS)
    names = (word if word == STANDARD_INPUT or not word.startswith("-") else f"./{word}" for word in words[at + 1 :])
    return [*words[:at]], [*names]


def called() -> str:
    """Returns how this program is called from the root of the repository."""
    path = os.path.realpath(sys.argv[0])
    return os.path.relpath(path, ROOT) if path.startswith(f"{ROOT}{os.sep}") else os.path.basename(path)


def print_version() -> int:
    """Prints the version of the product, and what its programs were proved with. Returns the exit status."""
    done = subprocess.run([LAUNCH, "--version"], stdin=subprocess.DEVNULL, stdout=subprocess.PIPE)
    print(done.stdout.decode(), end="")
    return done.returncode


def number(word: str) -> int:
    """Returns a number of a command line."""
    return number_up_to(MOST_NUMBER, word)


def number_up_to(most: int, word: str) -> int:
    """Returns a number of a command line that is at most `most`."""
    found = number_of(word, most)
    if found is None:
        raise argparse.ArgumentTypeError(f"'{word}' is not a number from 0 to {most}")
    return found


def input_name(word: str) -> str:
    """Returns the name of a file that is read once: for `-`, that of standard input."""
    return STANDARD_INPUT_FILE if word == STANDARD_INPUT else file_name(word)


def file_name(word: str) -> str:
    """Returns the name of a file, which isn't empty and isn't meant as an option."""
    if not word or word.startswith("-") and word != STANDARD_INPUT:
        raise argparse.ArgumentTypeError(f"'{word}' is not the name of a file")
    return word
