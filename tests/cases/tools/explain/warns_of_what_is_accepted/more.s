_start:	stop 2
