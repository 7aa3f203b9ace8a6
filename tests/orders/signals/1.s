# A signal to its own register 1, and what was delivered to both.
	il	$3,4
	wrch	$ch19,$3	# MFC_Size; address 0, tag 0
	il	$4,2
	wrch	$ch18,$4	# MFC_EAL: register 1 of processor 1
	il	$5,0xa0
	wrch	$ch21,$5	# SNDSIG
	rdch	$6,$ch3
	rdch	$7,$ch4
	stop	1
