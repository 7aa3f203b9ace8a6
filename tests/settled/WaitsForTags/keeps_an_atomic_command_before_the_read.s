# An atomic command isn't queued.
	ila	$2,0x400
	wrch	$ch16,$2
	il	$3,2
	wrch	$ch23,$3
	il	$5,0xd0
	wrch	$ch21,$5	# GETLLAR of line 0
	rdch	$4,$ch24
	rdch	$6,$ch27
	stop	1
