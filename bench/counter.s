# A loop that raises a counter in main memory, which the other processors raise too, by GETLLAR and PUTLLC. Where
# another one was first, the PUTLLC is lost, and the loop tries again.
	.text
_start:	ila	$3,line
	wrch	$ch16,$3	# MFC_LSA
	il	$4,0x80
	wrch	$ch18,$4	# MFC_EAL
	il	$5,0xd0		# GETLLAR
	il	$6,0xb4		# PUTLLC
again:	wrch	$ch21,$5	# MFC_Cmd
	rdch	$7,$ch27	# MFC_RdAtomicStat: waits until the command is done
	lqd	$8,0($3)
	ai	$8,$8,1
	stqd	$8,0($3)
	wrch	$ch21,$6	# MFC_Cmd
	rdch	$9,$ch27	# 0 where it stored, 1 where it was lost
	br	again

	.data
	.align	7
line:	.space	128
