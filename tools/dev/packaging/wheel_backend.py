"""Builds a wheel of the Python package in c/cell, with the shared library inside, by Python's standard library alone: pip calls it as pyproject.toml says, and
tools/dev/library --wheel as a program. The same files give the same bytes."""
import base64
import hashlib
import pathlib
import subprocess
import sys
import tempfile
import zipfile
from typing import Any, Dict, Mapping, Optional

ROOT = pathlib.Path(__file__).resolve().parents[3]
PACKAGE = ROOT / "c" / "cell"
LIBRARY = "libcell.so"
NAME, PURPOSE = "cell-spu", "Runs programs of the Cell processor's SPUs, and finds their DMA races"
TAG = "py3-none-linux_x86_64"
SINCE = (1980, 1, 1, 0, 0, 0)  # the time of all files, which a zip can have
MODE = 0o644
METADATA = f"""Metadata-Version: 2.1
Name: {NAME}
Version: {{version}}
Summary: {PURPOSE}
Requires-Python: >=3.9
"""
WHEEL = f"Wheel-Version: 1.0\nGenerator: cell tools/dev/library\nRoot-Is-Purelib: false\nTag: {TAG}\n"

Settings = Optional[Mapping[str, Any]]  # what pip was given for a backend; there are none


def version() -> str:
    return (ROOT / "VERSION").read_text(encoding="ascii").strip()


def library() -> bytes:
    """The shared library, made by the C compiler of this machine."""
    with tempfile.TemporaryDirectory() as room:
        file = pathlib.Path(room, LIBRARY)
        done = subprocess.run([str(ROOT / "tools" / "dev" / "library"), str(file)])
        if done.returncode:
            raise SystemExit(done.returncode)
        return file.read_bytes()


def files(info: str) -> Dict[str, bytes]:
    """The files of a wheel by their names, but for the list of them. `info` is the folder of what is said of the package."""
    sources = {f"cell/{path.name}": path.read_bytes() for path in PACKAGE.iterdir() if path.suffix in (".py", ".typed")}
    described = {f"{info}/METADATA": METADATA.format(version=version()).encode(), f"{info}/WHEEL": WHEEL.encode()}
    return {**dict(sorted(sources.items())), f"cell/{LIBRARY}": library(), **described}


def row(name: str, data: bytes) -> str:
    digest = base64.urlsafe_b64encode(hashlib.sha256(data).digest()).decode().rstrip("=")
    return f"{name},sha256={digest},{len(data)}\n"


def build_wheel(wheel_directory: str, config_settings: Settings = None, metadata_directory: Optional[str] = None) -> str:
    """Writes a wheel into a folder, and returns its name."""
    front = f"{NAME.replace('-', '_')}-{version()}"
    info = f"{front}.dist-info"
    data = files(info)
    data[f"{info}/RECORD"] = ("".join(row(*item) for item in data.items()) + f"{info}/RECORD,,\n").encode()
    name = f"{front}-{TAG}.whl"
    with zipfile.ZipFile(pathlib.Path(wheel_directory, name), "w", zipfile.ZIP_DEFLATED) as wheel:
        for path, text in data.items():
            entry = zipfile.ZipInfo(path, SINCE)
            entry.external_attr, entry.compress_type = MODE << 16, zipfile.ZIP_DEFLATED
            wheel.writestr(entry, text)
    return name


def build_sdist(sdist_directory: str, config_settings: Settings = None) -> str:
    """Refuses: the sources are the repository."""
    raise SystemExit("cell-spu has no source distribution: clone the repository")


if __name__ == "__main__":
    print(pathlib.Path(sys.argv[1], build_wheel(sys.argv[1])))
