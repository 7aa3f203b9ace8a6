# Puts a block, and behind it signals to register 1 of processor 1; then to a processor that isn't there.
	.text
	ila	$3,block
	wrch	$ch16,$3	# MFC_LSA
	il	$4,0
	wrch	$ch18,$4	# MFC_EAL
	il	$5,16
	wrch	$ch19,$5	# MFC_Size
	il	$6,0x20
	wrch	$ch21,$6	# MFC_Cmd: PUT
	ila	$3,value
	wrch	$ch16,$3	# MFC_LSA
	il	$4,2
	wrch	$ch18,$4	# MFC_EAL: register 1 of processor 1
	il	$5,4
	wrch	$ch19,$5	# MFC_Size
	il	$6,0xa2
	wrch	$ch21,$6	# MFC_Cmd: SNDSIGF
	il	$4,9
	wrch	$ch18,$4	# MFC_EAL: register 2 of processor 4
	il	$6,0xa0
	wrch	$ch21,$6	# MFC_Cmd: SNDSIG
	stop	1
	.data
	.align	7
block:	.long	1,2,3,4
value:	.long	0x11
