"""How the programs start and end, read texts and write files, and where the repository's own files are."""
