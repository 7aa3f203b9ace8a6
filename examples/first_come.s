# Writes the processor's own number into a word of main memory that others write, too: the first to come has it, and the others find it taken.
# GETLLAR and PUTLLC on one line are ordered, in the order in which they came, so nothing is a race; and who comes first is left to the run.
	.text
_start:	ila	$3,line
	wrch	$ch16,$3	# MFC_LSA: where the line lies in the local store
	il	$4,0
	wrch	$ch18,$4	# MFC_EAL: which line of main memory
	lqa	$5,0x1000	# which processor this is, as the machine file has it
	il	$6,0xd0
	il	$7,0xb4

again:	wrch	$ch21,$6	# MFC_Cmd: 0xd0 is GETLLAR
	rdch	$8,$ch27	# MFC_RdAtomicStat: the line is there
	lqd	$9,0($3)
	brnz	$9,taken
	stqd	$5,0($3)
	wrch	$ch21,$7	# MFC_Cmd: 0xb4 is PUTLLC
	rdch	$10,$ch27	# 0 says that it stored the line, 1 that the reservation was lost
	brnz	$10,again
	stop	1
taken:	stop	2

	.data
	.align	7		# a line begins at a multiple of 128, in the local store too
line:	.space	128
