# Raises a counter that lies in main memory, which the other processors raise too. Transfers alone can't do that: between a
# GET and a PUT another processor may raise the counter, and what it did would be lost. GETLLAR brings the line of 128 bytes
# and reserves it; PUTLLC stores it only if nothing has stored to the line since, and else it is done again.
	.text
_start:	ila	$3,line
	wrch	$ch16,$3	# MFC_LSA: where the line lies in the local store
	il	$4,0x80
	wrch	$ch18,$4	# MFC_EAL: which line of main memory
	il	$5,0xd0
	il	$6,0xb4

again:	wrch	$ch21,$5	# MFC_Cmd: 0xd0 is GETLLAR
	rdch	$7,$ch27	# MFC_RdAtomicStat: waits until the command is done, and says 4
	lqd	$8,0($3)
	ai	$8,$8,1		# the counter is the first word; the three beside it are raised with it
	stqd	$8,0($3)
	wrch	$ch21,$6	# MFC_Cmd: 0xb4 is PUTLLC
	rdch	$9,$ch27	# 0 says that it stored the line, 1 that the reservation was lost
	brnz	$9,again
	stop	1

	.data
	.align	7		# a line begins at a multiple of 128, in the local store too
line:	.space	128
