start:	lqdd $3,0($4)
	stop 1
