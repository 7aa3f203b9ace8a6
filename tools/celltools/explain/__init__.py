"""The parts of tools/explain, by kinds of files."""
