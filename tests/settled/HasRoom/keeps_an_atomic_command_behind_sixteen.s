# An atomic command isn't queued.
	il	$8,0xb4
	il	$5,0xc0
	wrch	$ch21,$5
	wrch	$ch21,$5
	wrch	$ch21,$5
	wrch	$ch21,$5
	wrch	$ch21,$5
	wrch	$ch21,$5
	wrch	$ch21,$5
	wrch	$ch21,$5
	wrch	$ch21,$5
	wrch	$ch21,$5
	wrch	$ch21,$5
	wrch	$ch21,$5
	wrch	$ch21,$5
	wrch	$ch21,$5
	wrch	$ch21,$5
	wrch	$ch21,$5
	wrch	$ch21,$8	# PUTLLC of a line that isn't held
	rdch	$9,$ch27
	stop	1
