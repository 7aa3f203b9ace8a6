# Loses updates, and leaves tag statuses unread.
	.text
_start:	ila	$3,line
	wrch	$ch16,$3	# MFC_LSA
	il	$4,0
	wrch	$ch18,$4	# MFC_EAL
	il	$10,4
again:	il	$5,0xd0
	wrch	$ch21,$5	# MFC_Cmd: GETLLAR
	rdch	$6,$ch27	# MFC_RdAtomicStat
	il	$5,0xb4
	wrch	$ch21,$5	# MFC_Cmd: PUTLLC, whose status nobody reads
	ai	$10,$10,-1
	brnz	$10,again
	il	$7,1
	wrch	$ch22,$7	# MFC_WrTagMask
	il	$7,0
	wrch	$ch23,$7	# MFC_WrTagUpdate: at once
	wrch	$ch23,$7
	rdch	$7,$ch24	# MFC_RdTagStat: that of the second request
	stop	1

	.data
	.align	7
line:	.space	128
