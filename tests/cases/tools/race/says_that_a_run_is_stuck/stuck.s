	lnop
	rdch	$3,$ch29
