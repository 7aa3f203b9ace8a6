# The tag mask is read, not counted.
	rdch	$3,$ch12
	stop	1
