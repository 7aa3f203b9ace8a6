# The host delivers a value, which no program reads.
	wrch	$ch28,$3
	stop	1
