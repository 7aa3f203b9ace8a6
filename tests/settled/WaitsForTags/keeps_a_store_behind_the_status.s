# A buffer is stored to when its PUT was waited for: the piece of the PUT may come anywhere between the command and the status.
	ila	$3,0x1000
	wrch	$ch16,$3	# MFC_LSA
	wrch	$ch18,$0
	il	$4,16
	wrch	$ch19,$4
	il	$5,0x20
	wrch	$ch21,$5	# PUT of tag 0
	il	$6,1
	wrch	$ch22,$6
	il	$6,2
	wrch	$ch23,$6
	rdch	$7,$ch24
	stqd	$4,0($3)
	stop	0
