	lnop
	stop	1
