"""The two short records of a race: the search for them, what comes out of each, and its words."""
