	lnop
	il	$3
