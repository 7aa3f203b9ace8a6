# Sends its bit to signal register 1 of SPU 0.
	.text
_start:	ila	$3,bit
	wrch	$ch16,$3	# MFC_LSA
	il	$3,0
	wrch	$ch18,$3	# MFC_EAL: register r of SPU q has the number 2 q + r - 1
	il	$3,4
	wrch	$ch19,$3	# MFC_Size
	il	$3,0
	wrch	$ch20,$3	# MFC_TagID
	il	$3,0xa0
	wrch	$ch21,$3	# MFC_Cmd: SNDSIG
	stop	1

	.data
	.org	0x1000
bit:	.long	0,0,0,0
