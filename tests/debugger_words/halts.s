_start:	il	$3,7
	rdch	$4,$ch29
	hgt	$4,$3
	stop	1
