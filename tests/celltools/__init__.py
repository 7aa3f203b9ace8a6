"""The modules of the tools, which stand in tools/celltools, for the programs beside this folder."""
import pathlib

__path__ = [str(pathlib.Path(__file__).resolve().parents[2] / "tools" / "celltools")]
