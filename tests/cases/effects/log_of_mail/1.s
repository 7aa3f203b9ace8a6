	il	$3,1
	stop	1
