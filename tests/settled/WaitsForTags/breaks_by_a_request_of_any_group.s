# A status of any group.
	il	$3,1
	wrch	$ch23,$3
	rdch	$4,$ch24
	stop	1
