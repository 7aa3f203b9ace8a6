"""The version of the package, which is that of the programs: the file VERSION of the repository."""
__version__ = "1.0.0"
