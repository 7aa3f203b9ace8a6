_start:	lr	$3,$4	# one.s:1 a copy
	stop	0	# two.s:1
