"""A page of tools/picture, read back."""
import base64
import json
import re
import zlib
from typing import Any, Dict, List


class Page:
    """A page: its facts, its tables, and the lines of its steps."""

    def __init__(self, text: str) -> None:
        self.text = text
        self.facts: Dict[str, Any] = json.loads(self.part("facts"))  # as JSON has them, and the tables too
        self.tables: Dict[str, Any] = json.loads(inflated(self.part("tables")))
        self.lines: List[str] = [line for block in self.part("steps").split("\n") for line in inflated(block).split("\n")]

    def part(self, name: str) -> str:
        """The text of one of its scripts."""
        (found,) = re.findall(rf'<script id="{name}" type="[^"]*">(.*?)</script>', self.text, re.S)
        return str(found)


def inflated(text: str) -> str:
    return zlib.decompress(base64.b64decode(text)).decode()
