"""What is told where something can't be made."""


class Failed(Exception):
    """Why it can't be made, and what to do next."""
