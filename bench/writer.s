# Waits for a word, then puts 16 other bytes of the same line COUNT times, each behind the one before it.
	.text
_start:	rdch	$2,$ch29	# SPU_RdInMbox
	ila	$3,0x1000
	wrch	$ch16,$3	# MFC_LSA
	il	$4,16
	wrch	$ch18,$4	# MFC_EAL
	wrch	$ch19,$4	# MFC_Size; the tag is 0
	ila	$5,COUNT
	il	$6,0x22
again:	wrch	$ch21,$6	# MFC_Cmd: PUTF
	ai	$5,$5,-1
	brnz	$5,again
	stop	1
