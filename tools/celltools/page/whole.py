"""The page as one file: its markup, colours and scripts, the engine, and the lessons. What is large is deflated, in base 64."""
import base64
import json
import pathlib
import re
import zlib
from typing import Dict, Iterator

from celltools.common.repository import ROOT
from celltools.page.bundle import Unmade, bundled
from celltools.page.lessons import library
from celltools.page.translated import python_script

PAGE = ROOT / "page"
WHOLE, ENGINE = PAGE / "cell.html", PAGE / "cell.wasm"
# What a browser lets the page do: nothing that asks another host.
POLICY = ("default-src 'none'; script-src 'unsafe-inline' 'wasm-unsafe-eval' blob:; worker-src blob:; style-src 'unsafe-inline'; frame-src 'self' blob:; "
          "connect-src 'none'; form-action 'none'; base-uri 'none'")
SECONDS = 60  # that an answer may take
MADE = "made by tools/dev/page of page/, tools/, docs/ and examples/: edit these, and call it again"
PACKED = re.compile(r'(<script id="(?:engine|worker)" type="text/plain">)([^<]*)(</script>)')


def text_of(name: str) -> str:
    return (PAGE / name).read_text(encoding="utf-8")


def packed(data: bytes) -> str:
    return base64.b64encode(zlib.compress(data, 9)).decode()


def unpacked(text: str) -> bytes:
    return zlib.decompress(base64.b64decode(text))


def colours() -> str:
    """The colours that the page and the picture share."""
    style = (ROOT / "tools" / "celltools" / "picture" / "picture.css").read_text(encoding="utf-8")
    return style[:style.index("\n\n") + 1]


def safe(text: str) -> str:
    """A text that can't end the element that it stands in."""
    return text.replace("<", "\\u003c")


def scripts() -> Dict[str, str]:
    """The script of the page and that of its workers."""
    worker = bundled(PAGE, "python/runtime.js") + python_script() + behind("worker.js", "python/runtime.js")
    return {"page": bundled(PAGE, "page.js"), "worker": f"'use strict';\n{worker}"}


def behind(name: str, *before: str) -> str:
    """The script of a module without what stands before it already."""
    return bundled(PAGE, *before, name)[len(bundled(PAGE, *before)):]


def parts(engine: bytes) -> Iterator[str]:
    """The page, in parts that follow one another."""
    made = scripts()
    yield f'<!doctype html>\n<!-- {MADE} -->\n<html lang="en"><head><meta charset="utf-8"><meta name="viewport" content="width=device-width">\n<title>cell</title>\n'
    yield f'<meta http-equiv="Content-Security-Policy" content="{POLICY}">\n<meta name="referrer" content="no-referrer">\n'
    yield f"<style>\n{colours()}{text_of('page.css')}</style></head>\n"
    yield f'<body data-seconds="{SECONDS}">\n{text_of("page.html")}'
    yield f'<script id="library" type="application/json">{safe(json.dumps(library(), ensure_ascii=False, separators=(",", ":")))}</script>\n'
    yield f'<script id="engine" type="text/plain">{packed(engine)}</script>\n'
    yield f'<script id="worker" type="text/plain">{packed(made["worker"].encode())}</script>\n'
    if "</script" in made["page"]:
        raise Unmade("page/: a script has `</script` in it, which would end it: write `<\\/script`")
    yield f"<script>\n'use strict';\n{made['page']}</script>\n</body></html>\n"


def page(engine: pathlib.Path = ENGINE) -> str:
    """The whole page."""
    if not engine.is_file():
        raise Unmade(f"{engine}: it isn't there: tools/dev/wasm makes it")
    return "".join(parts(engine.read_bytes()))


def opened(whole: str) -> str:
    """A page with its packed parts as they are: another zlib packs them otherwise."""
    return PACKED.sub(lambda found: found[1] + unpacked(found[2]).decode("latin1") + found[3], whole)
