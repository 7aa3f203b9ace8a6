"""Compiles the LLVM module of a static library for WebAssembly, by the kit's own clang and linker, with the heap and the wide arithmetic of this folder."""
import pathlib
import re
from typing import List

from engine.faults import Failed
from engine.kit import Kit, run
from engine.memory32 import UnknownModule, with_memory32

HERE = pathlib.Path(__file__).resolve().parent
PARTS = ("heap", "wide")
NATIVE, TARGET, PROCESSOR = "x86_64-unknown-linux-gnu", "wasm64-unknown-unknown", "lime1"
STACK_BYTES = 1_048_576
MISSING = ("bcmp", "memcmp", "strlen")  # functions of a C library that a compiler calls in the place of loops, unless it is told not to
ATTRIBUTES = " ".join([f'"target-cpu"="{PROCESSOR}"', '"target-features"="+simd128"', *(f'"no-builtin-{name}"' for name in MISSING)])
# The module was made for x86-64, but nothing of it is of that processor but these words: pointers have 64 bits in both.
REPLACED = (
    (re.compile(r"^target datalayout.*\n", re.M), ""),
    (re.compile(r"^target triple.*", re.M), f'target triple = "{TARGET}"'),
    (re.compile(r'"target-cpu"="[^"]*"'), ATTRIBUTES),
)


def flags() -> List[str]:
    return [f"--target={TARGET}", f"-mcpu={PROCESSOR}", "-msimd128", "--no-default-config", "-O3", "-c"]


def text_for_wasm(kit: Kit, module: pathlib.Path, folder: pathlib.Path) -> pathlib.Path:
    """The module as a text, for WebAssembly."""
    text = folder / "module.ll"
    run([kit.clang, f"--target={NATIVE}", "-S", "-emit-llvm", "-Xclang", "-disable-llvm-passes", "-x", "ir", module, "-o", text])
    told = text.read_text()
    for pattern, new in REPLACED:
        told, count = pattern.subn(new, told)
        if not count:
            raise Failed(f"the module has nothing of the form {pattern.pattern}: the kit may be a newer one, which writes it otherwise")
    text.write_text(told)
    return text


def compile_module(kit: Kit, module: pathlib.Path, exports: List[str], folder: pathlib.Path, keeps_names: bool = False) -> bytes:
    """The WebAssembly module, with a 32-bit memory and these functions of the library for whoever has it."""
    text, whole = text_for_wasm(kit, module, folder), folder / "whole.wasm"
    objects = [folder / f"{name}.o" for name in ("module", *PARTS)]
    # a place that isn't reached ends the call, in the place of going on into what lies behind it
    run([kit.clang, *flags(), "-mllvm", "-expand-div-rem-bits=64", "-mllvm", "-trap-unreachable", "-x", "ir", text, "-o", objects[0]])
    for name, made in zip(PARTS, objects[1:]):
        run([kit.clang, *flags(), "-ffreestanding", "-nostdinc", "-fwrapv", HERE / f"{name}.c", "-o", made])
    words = ["-flavor", "wasm", "-mwasm64", "--no-entry", "--stack-first", "-z", f"stack-size={STACK_BYTES}", "--gc-sections", "--fatal-warnings"]
    words += [] if keeps_names else ["--strip-all"]
    run([kit.linker, *words, *(f"--export={name}" for name in exports), "-o", whole, *objects])
    try:
        return with_memory32(whole.read_bytes())
    except UnknownModule as why:
        raise Failed(f"the module has what tools/dev/engine/memory32.py doesn't know: {why}") from None
