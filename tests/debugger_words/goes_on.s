_start:	il	$3,7
	rdch	$4,$ch29
	a	$4,$3,$4
	a	$4,$3,$4
	stop	1
