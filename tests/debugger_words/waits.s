_start:	il	$3,1
	rdch	$4,$ch29
	stop	1
