# There is no channel 15.
	rdch	$3,$ch15
	stop	1
