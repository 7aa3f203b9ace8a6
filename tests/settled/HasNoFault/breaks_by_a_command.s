# No command has the opcode 0xff.
	il	$3,0xff
	wrch	$ch21,$3
	stop	1
