# There is no channel 31.
	wrch	$ch31,$3
	stop	1
