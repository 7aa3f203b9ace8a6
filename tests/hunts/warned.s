_start:	rdch	$3,$ch3			# the first value, or the second
	stop	1
