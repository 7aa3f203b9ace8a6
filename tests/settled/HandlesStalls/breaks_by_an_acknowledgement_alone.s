# Nothing was read before the acknowledgement.
	il	$9,0
	wrch	$ch26,$9	# tag 0
	stop	1
