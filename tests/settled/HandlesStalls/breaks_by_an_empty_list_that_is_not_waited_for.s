# A list of no element is a list, too.
	ila	$3,0x1800
	wrch	$ch16,$3	# MFC_LSA
	ila	$4,0x2008
	wrch	$ch18,$4	# the list
	il	$5,0
	wrch	$ch19,$5
	il	$6,1
	wrch	$ch20,$6	# tag 1
	il	$7,0x44
	wrch	$ch21,$7	# GETL
	ila	$3,0x1000
	wrch	$ch16,$3	# MFC_LSA
	ila	$4,0x2000
	wrch	$ch18,$4	# the list
	il	$5,16
	wrch	$ch19,$5
	il	$6,0
	wrch	$ch20,$6	# tag 0
	il	$7,0x44
	wrch	$ch21,$7	# GETL
	rdch	$8,$ch25
	il	$9,0
	wrch	$ch26,$9	# tag 0
	stop	1
