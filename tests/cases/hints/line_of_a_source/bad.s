start:	il $3,08
	stop 1
