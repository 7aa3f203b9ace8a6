"""The files of vectors: one for each row and each kind of sequences, in a folder or in an archive whose bytes depend on nothing else."""
import concurrent.futures
import functools
import hashlib
import io
import lzma
import os
import tarfile
from typing import Dict, Iterator, Sequence, Tuple

from celltools.common.writing import write_whole
from celltools.run.runs import Refused
from celltools.vectors.rows import rows
from celltools.vectors.sequences import KINDS
from celltools.vectors.written import text_of_row, text_of_sequences

MOST_CASES = 1000
MODE = 0o644
LEVEL = 1  # of the compression: most of a file are random digits, of which a higher level gains little for ten times the time
SUMS = "SHA256SUMS"


@functools.cache
def known() -> Dict[str, str]:
    """The file of each row and each kind of sequences, by its name. A file's name may be no row's: `and` is one, and a folder keeps the two apart."""
    return {**{name: f"rows/{name}.json" for name in rows()}, **{name: f"sequences/{name}.json" for name in KINDS}}


def text_of(name: str, count: int, seed: int) -> bytes:
    text = text_of_sequences(name, count, seed) if name in KINDS else text_of_row(rows()[name], count, seed)
    return text.encode("ascii")


def texts(names: Sequence[str], count: int, seed: int, jobs: int) -> Iterator[Tuple[str, bytes]]:
    """The files by their names, in the order of `names`."""
    with concurrent.futures.ThreadPoolExecutor(jobs) as pool:
        yield from zip((known()[name] for name in names), pool.map(lambda name: text_of(name, count, seed), names))


def write_files(folder: str, names: Sequence[str], count: int, seed: int, jobs: int) -> None:
    for name, data in texts(names, count, seed, jobs):
        path = os.path.join(folder, name)
        try:
            os.makedirs(os.path.dirname(path), exist_ok=True)
            write_whole(path, data)
        except OSError as why:
            raise Refused(f"{path}: {why.strerror}: name a writable folder") from None


def write_archive(file: str, count: int, seed: int, jobs: int) -> str:
    """Writes all files, with their checksums, as a compressed archive. Returns the lines of checksums: of the archive, and of each file in it."""
    name = file if file.endswith(".tar.xz") else f"{file}.tar.xz"
    packed = io.BytesIO()
    sums = []
    with tarfile.open(fileobj=packed, mode="w", format=tarfile.USTAR_FORMAT) as archive:
        for path, data in texts(list(known()), count, seed, jobs):
            sums.append(f"{hashlib.sha256(data).hexdigest()}  {path}")
            add(archive, path, data)
        add(archive, SUMS, "".join(f"{line}\n" for line in sums).encode())
    data = lzma.compress(packed.getvalue(), preset=LEVEL)
    try:
        write_whole(name, data)
    except OSError as why:
        raise Refused(f"{name}: {why.strerror}: name a writable file") from None
    return "\n".join([f"{hashlib.sha256(data).hexdigest()}  {os.path.basename(name)}", *sums])


def add(archive: tarfile.TarFile, path: str, data: bytes) -> None:
    """Adds a file without an owner and a time."""
    entry = tarfile.TarInfo(f"vectors/{path}")
    entry.size, entry.mode = len(data), MODE
    archive.addfile(entry, io.BytesIO(data))
