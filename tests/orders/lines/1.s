# A GETLLAR of line 1.
	il	$3,0x100
	wrch	$ch16,$3
	il	$3,0x80
	wrch	$ch18,$3
	il	$3,0xd0
	wrch	$ch21,$3	# GETLLAR of the line
	stop	1
