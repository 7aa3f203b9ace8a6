	lnop
