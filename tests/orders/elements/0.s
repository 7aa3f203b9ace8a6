# A GETL of two elements, of which the second lies across two lines, and another of one element with the same tag.
	ila	$3,0x1000
	wrch	$ch16,$3	# MFC_LSA
	ila	$4,0x2000
	wrch	$ch18,$4	# the list
	il	$5,16
	wrch	$ch19,$5	# two elements
	il	$6,0x44
	wrch	$ch21,$6	# GETL, command 0
	ila	$7,0x1800
	wrch	$ch16,$7
	il	$8,8
	wrch	$ch19,$8	# one element
	wrch	$ch21,$6	# GETL, command 1
	stop	1
