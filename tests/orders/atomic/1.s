# A GETLLAR of line 0, and one of line 1.
	ila	$3,0x1000
	wrch	$ch16,$3	# MFC_LSA; address 0
	il	$4,0xd0
	wrch	$ch21,$4	# GETLLAR
	rdch	$5,$ch27
	il	$6,128
	wrch	$ch18,$6	# address 128
	wrch	$ch21,$4	# GETLLAR
	rdch	$7,$ch27
	stop	1
