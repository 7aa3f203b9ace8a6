# The same where the processor has stopped before.
	ila	$3,0x1000
	wrch	$ch16,$3	# MFC_LSA
	ila	$4,0x2000
	wrch	$ch18,$4	# the list
	il	$5,16
	wrch	$ch19,$5	# two elements
	il	$6,0x44
	wrch	$ch21,$6	# GETL, command 0
	stop	1
