# An event that isn't pending is acknowledged.
	wrch	$ch2,$3
	stop	1
