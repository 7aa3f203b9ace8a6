# A reader behind a lock of readers and writers: word 0 of the line at 0 is how many readers there are, or -1 where a writer is there. It reads two
# quadwords at 0x80, twice, and $11 stays 0 where they were equal. writer.s is the other side.
# The race: it leaves before its GET, so a writer's PUT may write the data while the GET's piece reads it. Only some runs show it: a writer has to come
# while no other reader is there. What mends it is reader.s: it leaves when its GET is done.
	.text
_start:	il	$10,2		# how often still
enter:	il	$9,1		# a reader more
	brsl	$20,change
	il	$9,-1		# a reader fewer: it leaves
	brsl	$20,change
	il	$7,0x40		# GET
	brsl	$lr,move
	lqa	$8,data
	lqa	$9,data+16
	ceq	$8,$8,$9
	nor	$8,$8,$8
	or	$11,$11,$8
	ai	$10,$10,-1
	brnz	$10,enter
	stop	1

# Adds $9 to the number of readers, as soon as no writer is there; its link is $20.
change:	il	$7,0xd0		# GETLLAR
	brsl	$lr,atomic
	lqa	$8,line
	cgti	$5,$8,-1
	brz	$5,change	# a writer is there
	a	$8,$8,$9
	stqa	$8,line
	il	$7,0xb4		# PUTLLC
	brsl	$lr,atomic
	brnz	$6,change	# another processor was faster
	bi	$20

# Does the atomic command in $7 on the line, and answers its status in $6.
atomic:	ila	$3,line
	wrch	$ch16,$3	# MFC_LSA
	il	$4,0
	wrch	$ch18,$4	# MFC_EAL
	wrch	$ch21,$7	# MFC_Cmd
	rdch	$6,$ch27	# MFC_RdAtomicStat
	bi	$lr

# Does the command in $7 for the data, and waits until it is done; the tag is 0.
move:	ila	$3,data
	wrch	$ch16,$3	# MFC_LSA
	il	$4,128
	wrch	$ch18,$4	# MFC_EAL
	il	$5,32
	wrch	$ch19,$5	# MFC_Size
	wrch	$ch21,$7	# MFC_Cmd
	il	$5,1
	wrch	$ch22,$5	# MFC_WrTagMask: tag 0
	il	$5,2
	wrch	$ch23,$5	# MFC_WrTagUpdate: when all of it is done
	rdch	$5,$ch24	# MFC_RdTagStat
	bi	$lr

	.data
	.align	7
line:	.space	128
data:	.space	32
