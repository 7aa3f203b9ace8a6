"""Asks the proved programs about records and hunts: the steps of a run, their effects, and the states behind them."""
