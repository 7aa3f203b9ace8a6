	il	$4,0xb0
	nop
	wrch	$ch21,$4
	wrch	$ch21,$0
