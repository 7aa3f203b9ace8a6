	lnop
	lnop
	stop 1
