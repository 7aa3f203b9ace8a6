# A writer behind a lock of readers and writers: word 0 of the line at 0 is how many readers there are, or -1 where a writer is there. It adds 1 to
# two quadwords at 0x80, twice. reader.s is the other side.
	.text
_start:	il	$10,2		# how often still
enter:	il	$7,0xd0		# GETLLAR
	brsl	$lr,atomic
	lqa	$8,line
	brnz	$8,enter	# others are there
	il	$8,-1
	stqa	$8,line
	il	$7,0xb4		# PUTLLC
	brsl	$lr,atomic
	brnz	$6,enter	# another processor was faster
	il	$7,0x40		# GET
	brsl	$lr,move
	lqa	$8,data
	ai	$8,$8,1
	stqa	$8,data
	stqa	$8,data+16
	il	$7,0x20		# PUT
	brsl	$lr,move
	il	$8,0
	stqa	$8,line
	il	$7,0xb0		# PUTLLUC: free again
	brsl	$lr,atomic
	ai	$10,$10,-1
	brnz	$10,enter
	stop	1

# Does the atomic command in $7 on the line, and answers its status in $6.
atomic:	ila	$3,line
	wrch	$ch16,$3	# MFC_LSA
	il	$4,0
	wrch	$ch18,$4	# MFC_EAL
	wrch	$ch21,$7	# MFC_Cmd
	rdch	$6,$ch27	# MFC_RdAtomicStat
	bi	$lr

# Does the command in $7 for the data, and waits until it is done; the tag is 0.
move:	ila	$3,data
	wrch	$ch16,$3	# MFC_LSA
	il	$4,128
	wrch	$ch18,$4	# MFC_EAL
	il	$5,32
	wrch	$ch19,$5	# MFC_Size
	wrch	$ch21,$7	# MFC_Cmd
	il	$5,1
	wrch	$ch22,$5	# MFC_WrTagMask: tag 0
	il	$5,2
	wrch	$ch23,$5	# MFC_WrTagUpdate: when all of it is done
	rdch	$5,$ch24	# MFC_RdTagStat
	bi	$lr

	.data
	.align	7
line:	.space	128
data:	.space	32
