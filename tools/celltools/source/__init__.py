"""The language of sources: its names and mnemonics, where its lines are placed, and sources of GNU as."""
