	br strat
start:	stop 1
