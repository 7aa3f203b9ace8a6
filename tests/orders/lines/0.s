# A PUT of line 1, and a PUTQLLUC of it.
	il	$3,0x100
	wrch	$ch16,$3
	il	$3,0x80
	wrch	$ch18,$3
	il	$3,128
	wrch	$ch19,$3
	il	$3,0x20
	wrch	$ch21,$3	# PUT of the line, command 0
	il	$3,0xb8
	wrch	$ch21,$3	# PUTQLLUC of it, command 1
	stop	1
