# Three processors add 1 to the words at 0x80 of main memory, twice each. A lock keeps them apart: word 0 of the line at 0, which is 0
# where it is free.
# The race: the data is read before the lock is taken, so the GET's piece reads it while the PUT's of another processor writes it. What mends it is
# mutex.s: it takes the lock first.
	.text
_start:	il	$10,2		# how often still
round:	il	$7,0x40		# GET of the data
	brsl	$lr,move
	brsl	$lr,wait
	brsl	$lr,lock	# too late: the data is read already
	lqa	$8,data
	ai	$8,$8,1
	stqa	$8,data
	il	$7,0x20		# PUT of the data
	brsl	$lr,move
	brsl	$lr,wait	# the data is in main memory
	brsl	$lr,unlock
	ai	$10,$10,-1
	brnz	$10,round
	stop	1

# Issues the command in $7 for the data; the tag is 0.
move:	ila	$3,data
	wrch	$ch16,$3	# MFC_LSA
	il	$4,128
	wrch	$ch18,$4	# MFC_EAL
	il	$5,16
	wrch	$ch19,$5	# MFC_Size
	wrch	$ch21,$7	# MFC_Cmd
	bi	$lr

# Waits until all that was issued is done.
wait:	il	$5,1
	wrch	$ch22,$5	# MFC_WrTagMask: tag 0
	il	$5,2
	wrch	$ch23,$5	# MFC_WrTagUpdate: when all of it is done
	rdch	$5,$ch24	# MFC_RdTagStat
	bi	$lr

# Takes the lock.
lock:	ila	$3,line
	wrch	$ch16,$3	# MFC_LSA
	il	$4,0
	wrch	$ch18,$4	# MFC_EAL
try:	il	$5,0xd0
	wrch	$ch21,$5	# MFC_Cmd: GETLLAR
	rdch	$6,$ch27	# MFC_RdAtomicStat
	lqa	$6,line
	brnz	$6,try		# it is taken
	il	$6,1
	stqa	$6,line
	il	$5,0xb4
	wrch	$ch21,$5	# MFC_Cmd: PUTLLC
	rdch	$6,$ch27	# MFC_RdAtomicStat: 0 where it stored
	brnz	$6,try		# another processor was faster
	bi	$lr

# Frees the lock.
unlock:	ila	$3,line
	wrch	$ch16,$3	# MFC_LSA
	il	$4,0
	wrch	$ch18,$4	# MFC_EAL
	stqa	$4,line
	il	$5,0xb0
	wrch	$ch21,$5	# MFC_Cmd: PUTLLUC
	rdch	$6,$ch27	# MFC_RdAtomicStat
	bi	$lr

	.data
	.align	7
line:	.space	128
data:	.space	16
