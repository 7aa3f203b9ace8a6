"""What the programs of tests/ share: rules told a second time, readers of what is printed, a browser, and the rows of tests/hostile."""
