"""How the archive and the WebAssembly module of the crate cell_library are made: what tools/dev/wasm does.

building   proves and builds the crate, and keeps its archive and the LLVM module that its compiler was given
compiling  compiles that LLVM module for WebAssembly
memory32   makes of a module with a 64-bit memory one with a 32-bit memory
manifest   the checksums of what is committed, and of what it was made of
"""
