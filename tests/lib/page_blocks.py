"""The blocks of a page as a reader copies them: indented lines, and the blank lines between them."""
import pathlib
import re
import textwrap
from typing import List

BLOCK = re.compile(r"(?:^ {4}.*\n(?:\n+(?= {4}))?)+", re.M)


def blocks_of(page: pathlib.Path) -> List[str]:
    return [textwrap.dedent(block) for block in BLOCK.findall(page.read_text())]
