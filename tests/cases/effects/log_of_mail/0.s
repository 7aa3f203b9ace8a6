# Two values for the host, a PUT, and the end.
	il	$3,1
	wrch	$ch28,$3	# the first value
	il	$4,16
	wrch	$ch19,$4	# MFC_Size; addresses 0 and 0, tag 0
	il	$5,0x20
	wrch	$ch28,$3	# the second value, when the first was taken
	wrch	$ch21,$5	# PUT
	stop	1
