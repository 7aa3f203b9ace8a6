# A list that stalls behind its first element and goes on, and one of another tag that doesn't stall.
	ila	$3,0x1000
	wrch	$ch16,$3	# MFC_LSA
	ila	$4,0x2000
	wrch	$ch18,$4	# the list
	il	$5,16
	wrch	$ch19,$5	# two elements, tag 0
	il	$6,0x44
	wrch	$ch21,$6	# GETL, command 0
	il	$7,3
	wrch	$ch20,$7	# tag 3
	ila	$8,0x1800
	wrch	$ch16,$8
	ila	$9,0x2008
	wrch	$ch18,$9	# its second element
	il	$10,8
	wrch	$ch19,$10
	wrch	$ch21,$6	# GETL, command 1
	rdch	$11,$ch25	# tag 0 has stalled
	wrch	$ch26,$0	# and goes on
	stop	1
