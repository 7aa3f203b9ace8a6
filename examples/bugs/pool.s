# Takes a buffer from a pool, and gives it back. Word 0 of the line at 0 is the number of free buffers.
# The assertion in line 23 fails in some runs: docs/guide/walks.md finds out why.
	.text
_start:	ila	$3,line
	wrch	$ch16,$3	# MFC_LSA
	il	$4,0
	wrch	$ch18,$4	# MFC_EAL

# Waits until a buffer is free.
look:	il	$5,0xd0
	wrch	$ch21,$5	# MFC_Cmd: GETLLAR
	rdch	$6,$ch27	# MFC_RdAtomicStat
	lqa	$7,line
	brz	$7,look

# Takes one.
take:	il	$5,0xd0
	wrch	$ch21,$5	# MFC_Cmd: GETLLAR
	rdch	$6,$ch27	# MFC_RdAtomicStat
	lqa	$7,line
	ai	$8,$7,-1
	stqa	$8,line
	heqi	$7,0		# assert: a buffer is free
	il	$5,0xb4
	wrch	$ch21,$5	# MFC_Cmd: PUTLLC
	rdch	$6,$ch27	# MFC_RdAtomicStat: 0 if it stored
	brnz	$6,take

# Gives it back.
give:	il	$5,0xd0
	wrch	$ch21,$5	# MFC_Cmd: GETLLAR
	rdch	$6,$ch27	# MFC_RdAtomicStat
	lqa	$7,line
	ai	$7,$7,1
	stqa	$7,line
	il	$5,0xb4
	wrch	$ch21,$5	# MFC_Cmd: PUTLLC
	rdch	$6,$ch27	# MFC_RdAtomicStat: 0 if it stored
	brnz	$6,give
	stop	1

	.data
	.align	7
line:	.space	128
