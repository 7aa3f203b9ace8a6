"""What ./cell and ./hunt print after a refusal of the proved program: the file, the line and its text, and what to do next."""
