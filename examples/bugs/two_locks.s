# Takes two locks, changes what they protect, and frees them. A lock is word 0 of a line of main memory: 1 if it is taken.
# Some runs never end: docs/guide/walks.md finds out why.
	.text
_start:	lqa	$10,locks	# the addresses of the first and the second lock
	rotqbyi	$11,$10,4
	lr	$4,$10
	brsl	$lr,lock
	lr	$4,$11
	brsl	$lr,lock
	lqa	$12,done	# what the locks protect
	ai	$12,$12,1
	stqa	$12,done
	lr	$4,$11
	brsl	$lr,free
	lr	$4,$10
	brsl	$lr,free
	stop	1

# Takes the lock at $4.
lock:	ila	$3,line
	wrch	$ch16,$3	# MFC_LSA
	wrch	$ch18,$4	# MFC_EAL
try:	il	$5,0xd0
	wrch	$ch21,$5	# MFC_Cmd: GETLLAR
	rdch	$6,$ch27	# MFC_RdAtomicStat
	lqa	$6,line
	brnz	$6,try		# it is taken
	il	$6,1
	stqa	$6,line
	il	$5,0xb4
	wrch	$ch21,$5	# MFC_Cmd: PUTLLC
	rdch	$6,$ch27	# MFC_RdAtomicStat: 0 if it stored
	brnz	$6,try
	bi	$lr

# Frees the lock at $4.
free:	ila	$3,line
	wrch	$ch16,$3	# MFC_LSA
	wrch	$ch18,$4	# MFC_EAL
	il	$6,0
	stqa	$6,line
	il	$5,0xb0
	wrch	$ch21,$5	# MFC_Cmd: PUTLLUC
	rdch	$6,$ch27	# MFC_RdAtomicStat
	bi	$lr

	.data
	.align	7
line:	.space	128
done:	.space	16
	.org	0x1000
locks:	.long	0,0x80,0,0
