# The list stays stalled.
	ila	$3,0x1000
	wrch	$ch16,$3	# MFC_LSA
	ila	$4,0x2000
	wrch	$ch18,$4	# the list
	il	$5,16
	wrch	$ch19,$5
	il	$6,0
	wrch	$ch20,$6	# tag 0
	il	$7,0x44
	wrch	$ch21,$7	# GETL
	rdch	$8,$ch25
	stop	1
