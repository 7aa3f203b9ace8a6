	rdch	$3,$MFC_RdAtomicStat
	rdch	$3,$SPU_RdDec
	br	1b
	.comm	x,4,3
	.comm	y,4,4
	il	$3,z*2
	il	$3,2*2
	.data
	.ascii	"\xg"
