"""Writes the modules of the tools as JavaScript, so that the page tells of a run what the tools tell: by the same code. page/python has what Python brings."""
