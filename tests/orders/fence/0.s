# A PUT, a PUT with a fence and a PUT of another tag, and a BARRIER with a PUT behind it.
	ila	$3,0x1000
	wrch	$ch16,$3	# MFC_LSA
	il	$4,16
	wrch	$ch19,$4	# MFC_Size; address 0, tag 0
	il	$5,0x20
	wrch	$ch21,$5	# PUT, command 0
	il	$6,0x22
	wrch	$ch21,$6	# PUTF, command 1
	wrch	$ch20,$4	# tag 16
	wrch	$ch21,$5	# PUT, command 2
	il	$7,0xc0
	il	$8,5
	wrch	$ch20,$8	# tag 5
	wrch	$ch21,$7	# BARRIER, command 3
	wrch	$ch20,$4
	wrch	$ch21,$5	# PUT of tag 16, command 4
	stop	1
