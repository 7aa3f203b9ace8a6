# Works for a while, and sends the answer to signal register 1 of SPU 0.
	.text
_start:	il	$10,200
work:	ai	$10,$10,-1
	brnz	$10,work
	ila	$3,answer
	wrch	$ch16,$3	# MFC_LSA
	il	$3,0
	wrch	$ch18,$3	# MFC_EAL: register r of SPU q has the number 2 q + r - 1
	il	$3,4
	wrch	$ch19,$3	# MFC_Size
	il	$3,0
	wrch	$ch20,$3	# MFC_TagID
	il	$3,0xa0
	wrch	$ch21,$3	# MFC_Cmd: SNDSIG
	stop	1

	.data
	.align	4
answer:	.long	42,0,0,0
