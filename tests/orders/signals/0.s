# A signal to register 1 of processor 1, one to its register 2, and two to a register that isn't there.
	il	$3,4
	wrch	$ch19,$3	# MFC_Size; address 0, tag 0
	il	$4,2
	wrch	$ch18,$4	# MFC_EAL: register 1 of processor 1
	il	$5,0xa0
	wrch	$ch21,$5	# SNDSIG
	il	$4,3
	wrch	$ch18,$4	# register 2 of processor 1
	wrch	$ch21,$5
	il	$4,4
	wrch	$ch18,$4	# register 1 of processor 2, which isn't there
	wrch	$ch21,$5
	wrch	$ch21,$5
	stop	1
