	lnop
	br nowhere
