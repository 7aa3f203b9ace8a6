# Two GETLLARs of line 0, of which the status of the first isn't read.
	ila	$3,0x1000
	wrch	$ch16,$3	# MFC_LSA; address 0
	il	$4,0xd0
	wrch	$ch21,$4	# GETLLAR
	il	$5,1
	wrch	$ch21,$4	# GETLLAR
	il	$6,1
	rdch	$7,$ch27
	stop	1
