# The host hasn't yet come to its signal.
	wrch	$ch28,$3
	stop	1
