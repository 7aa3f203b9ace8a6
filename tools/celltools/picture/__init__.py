"""The parts of tools/picture: what a run tells (run.py), which steps have a row (rows.py), bars and arrows, words, and the page."""
