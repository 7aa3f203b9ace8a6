# The status that is read before the seventeenth BARRIER orders the sixteen before it.
	il	$5,0xc0
	wrch	$ch21,$5
	wrch	$ch21,$5
	wrch	$ch21,$5
	wrch	$ch21,$5
	wrch	$ch21,$5
	wrch	$ch21,$5
	wrch	$ch21,$5
	wrch	$ch21,$5
	wrch	$ch21,$5
	wrch	$ch21,$5
	wrch	$ch21,$5
	wrch	$ch21,$5
	wrch	$ch21,$5
	wrch	$ch21,$5
	wrch	$ch21,$5
	wrch	$ch21,$5
	il	$3,1
	wrch	$ch22,$3	# tag 0
	il	$4,2
	wrch	$ch23,$4
	rdch	$6,$ch24
	wrch	$ch21,$5
	stop	1
