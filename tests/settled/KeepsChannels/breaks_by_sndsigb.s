# SNDSIGB to register 1 of the processor itself.
	il	$3,4
	wrch	$ch19,$3	# four bytes
	il	$4,0xa1
	wrch	$ch21,$4
	stop	1
