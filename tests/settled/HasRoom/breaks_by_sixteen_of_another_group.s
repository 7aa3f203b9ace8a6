# The status that is read before the seventeenth BARRIER is of a group without a command.
	il	$7,1
	wrch	$ch20,$7	# tag 1
	il	$5,0xc0
	wrch	$ch21,$5
	wrch	$ch21,$5
	wrch	$ch21,$5
	wrch	$ch21,$5
	wrch	$ch21,$5
	wrch	$ch21,$5
	wrch	$ch21,$5
	wrch	$ch21,$5
	wrch	$ch21,$5
	wrch	$ch21,$5
	wrch	$ch21,$5
	wrch	$ch21,$5
	wrch	$ch21,$5
	wrch	$ch21,$5
	wrch	$ch21,$5
	wrch	$ch21,$5
	il	$3,1
	wrch	$ch22,$3	# tag 0
	il	$4,2
	wrch	$ch23,$4
	rdch	$6,$ch24
	wrch	$ch21,$5
	stop	1
