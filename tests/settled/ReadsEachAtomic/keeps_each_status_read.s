# Each status is read.
	ila	$2,0x400
	wrch	$ch16,$2
	il	$3,0xd0
	wrch	$ch21,$3	# GETLLAR of line 0
	rdch	$4,$ch27
	il	$5,0xb4
	wrch	$ch21,$5	# PUTLLC of line 0
	rdch	$6,$ch27
	stop	1
