# Stores the line at 0 of main memory by PUTLLUC. Another processor that has a reservation of it loses it by that, and gets the event 0x400: wait_any.s.
	.text
_start:	ila	$3,line
	wrch	$ch16,$3	# MFC_LSA
	il	$3,0
	wrch	$ch18,$3	# MFC_EAL
	il	$3,0xb0
	wrch	$ch21,$3	# MFC_Cmd: PUTLLUC
	rdch	$3,$ch27	# MFC_RdAtomicStat
	stop	1
	.data
	.align	7
line:	.long	3
	.space	124
