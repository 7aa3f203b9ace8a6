_start:	lr	$3,$4	# a copy
