_start:	stop	1
