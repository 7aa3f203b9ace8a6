# A status that is asked for at once.
	wrch	$ch23,$0
	rdch	$4,$ch24
	stop	1
