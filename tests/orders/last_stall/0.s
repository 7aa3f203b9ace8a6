# A list that stalls behind its last element, a PUTF of its tag and a PUT of another.
	ila	$3,0x1000
	wrch	$ch16,$3	# MFC_LSA
	ila	$4,0x2000
	wrch	$ch18,$4	# the list
	il	$5,8
	wrch	$ch19,$5	# one element, tag 0
	il	$6,0x44
	wrch	$ch21,$6	# GETL, command 0
	wrch	$ch18,$0
	il	$7,16
	wrch	$ch19,$7
	il	$8,0x22
	wrch	$ch21,$8	# PUTF, command 1
	il	$9,3
	wrch	$ch20,$9	# tag 3
	il	$10,0x20
	wrch	$ch21,$10	# PUT, command 2
	wrch	$ch26,$0	# the list goes on, and is complete
	stop	1
