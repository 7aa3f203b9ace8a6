# A channel that is written in the wrong way, though it is one of those that may be used.
	wrch	$ch24,$3
	stop	1
