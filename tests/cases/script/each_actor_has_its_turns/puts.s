_start:	ila	$3,0x100
	wrch	$ch16,$3
	wrch	$ch18,$0
	il	$4,16
	wrch	$ch19,$4
	il	$5,0x20
	wrch	$ch21,$5	# a PUT of 16 bytes to line 0
	il	$6,0x80
	wrch	$ch18,$6
	wrch	$ch21,$5	# and one to line 1
	stop	1
