"""What hunts print: its objects, its text, the words that ./hunt adds, and SARIF."""
