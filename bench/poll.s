# One processor that polls the count of the tag status for its GET.
_start:	ila	$3,0x1000
	wrch	$ch16,$3	# MFC_LSA
	il	$3,16
	wrch	$ch19,$3	# MFC_Size
	il	$3,0x40
	wrch	$ch21,$3	# MFC_Cmd: GET
	il	$3,1
	wrch	$ch22,$3	# MFC_WrTagMask
	il	$3,2
	wrch	$ch23,$3	# MFC_WrTagUpdate
again:	rchcnt	$3,$ch24
	brz	$3,again
	rdch	$3,$ch24	# MFC_RdTagStat
	stop	1
