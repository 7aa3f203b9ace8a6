# The first of the channels that may be used.
	rdch	$3,$ch12
	stop	1
