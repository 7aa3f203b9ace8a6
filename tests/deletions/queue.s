# A work queue: four processors take the numbers from 0 to 11 by a counter, word 0 of the line at 0. Each squares the words of the block of its number,
# 16 bytes at 0x100 + 16 N, and puts it back.
	.text
_start:	brsl	$lr,number
	cgti	$5,$8,11
	brnz	$5,done
	shli	$4,$8,4
	ai	$4,$4,0x100
	il	$7,0x40		# GET of the block
	brsl	$lr,move
	lqa	$9,block
	mpy	$9,$9,$9
	stqa	$9,block
	il	$7,0x20		# PUT of the block
	brsl	$lr,move
	br	_start
done:	stop	1

# Takes the next number, to $8.
number:	ila	$3,line
	wrch	$ch16,$3	# MFC_LSA
	il	$4,0
	wrch	$ch18,$4	# MFC_EAL
again:	il	$5,0xd0
	wrch	$ch21,$5	# MFC_Cmd: GETLLAR
	rdch	$6,$ch27	# MFC_RdAtomicStat
	lqa	$8,line
	ai	$6,$8,1
	stqa	$6,line
	il	$5,0xb4
	wrch	$ch21,$5	# MFC_Cmd: PUTLLC
	rdch	$6,$ch27	# MFC_RdAtomicStat: 0 where it stored
	brnz	$6,again
	bi	$lr

# Issues the command in $7 between the block and the address $4, and waits for it; the tag is 0.
move:	ila	$3,block
	wrch	$ch16,$3	# MFC_LSA
	wrch	$ch18,$4	# MFC_EAL
	il	$5,16
	wrch	$ch19,$5	# MFC_Size
	wrch	$ch21,$7	# MFC_Cmd
	il	$5,1
	wrch	$ch22,$5	# MFC_WrTagMask: tag 0
	il	$5,2
	wrch	$ch23,$5	# MFC_WrTagUpdate: when all of it is done
	rdch	$5,$ch24	# MFC_RdTagStat
	bi	$lr

	.data
	.org	0x400
line:	.space	128
block:	.space	16
