"""Test vectors for writers of emulators: cases of each instruction and of channel sequences, with the states before and after, of the proved machine."""
