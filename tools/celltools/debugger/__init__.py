"""The parts of tools/debug: the session, its grammar, and its commands by what they do."""
