# A channel below those that may be used.
	rdch	$3,$ch11
	stop	1
