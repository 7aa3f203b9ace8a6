# The last of the channels that may be used.
	wrch	$ch30,$3
	stop	1
