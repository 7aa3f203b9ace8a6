# Four blocks of 16 bytes go through two buffers: the next one is fetched into one while the program doubles that in the other and puts it back.
# The fence of GETF orders it behind the PUT from the same buffer, which has the same tag. Without it, it is a race: stream2_nofence_race.s.
	.text
_start:	il	$10,0		# the block to work on, in buffer 0 or 1
	il	$3,0
	il	$4,0
	il	$7,0x40		# GET of block 0 into buffer 0
	brsl	$lr,move
loop:	ai	$3,$10,1
	ceqi	$5,$3,4
	brnz	$5,work		# there is no next block
	andi	$4,$3,1
	shli	$3,$3,4
	il	$7,0x42		# GETF of the next block, behind the PUT of its buffer
	brsl	$lr,move
work:	andi	$4,$10,1
	il	$5,1
	shl	$5,$5,$4
	brsl	$lr,wait	# for this block
	shli	$8,$4,4
	ila	$9,buffers
	a	$8,$8,$9
	lqd	$9,0($8)
	a	$9,$9,$9
	stqd	$9,0($8)
	shli	$3,$10,4
	ai	$3,$3,128
	il	$7,0x20		# PUT of this block
	brsl	$lr,move
	ai	$10,$10,1
	ceqi	$5,$10,4
	brz	$5,loop
	il	$5,3
	brsl	$lr,wait	# for all
	stop	1

# Issues the command in $7 between buffer $4, whose tag is its number, and the address $3 of main memory.
move:	shli	$5,$4,4
	ila	$6,buffers
	a	$5,$5,$6
	wrch	$ch16,$5	# MFC_LSA
	wrch	$ch18,$3	# MFC_EAL
	il	$6,16
	wrch	$ch19,$6	# MFC_Size
	wrch	$ch20,$4	# MFC_TagID
	wrch	$ch21,$7	# MFC_Cmd
	bi	$lr

# Waits for the tags in $5.
wait:	wrch	$ch22,$5	# MFC_WrTagMask
	il	$5,2
	wrch	$ch23,$5	# MFC_WrTagUpdate: when all of them is done
	rdch	$5,$ch24	# MFC_RdTagStat
	bi	$lr

	.data
	.align	7
buffers: .space	32
