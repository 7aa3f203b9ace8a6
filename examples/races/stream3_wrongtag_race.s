# Six blocks of 16 bytes go through three buffers: two are fetched ahead while the program adds 5 to the words of a third and puts it back.
# The race: the program loads the last block but one while its GET may still write it. As long as there is a block to fetch, the buffer that is
# fetched next is the one to work on, and the wait is right; then it stays where it is. What mends it is stream3.s: the tag of the buffer to work on.
	.text
_start:	il	$10,0		# the block to work on
	il	$11,0		# its buffer
	il	$12,0		# the block to fetch
	il	$13,0		# its buffer
	brsl	$20,fetch
	brsl	$20,fetch
loop:	brsl	$20,fetch
	il	$5,1
	shl	$5,$5,$13	# the tag of the buffer to fetch next
	brsl	$lr,wait
	shli	$8,$11,4
	ila	$9,buffers
	a	$8,$8,$9
	lqd	$9,0($8)
	ai	$9,$9,5
	stqd	$9,0($8)
	lr	$4,$11
	shli	$3,$10,4
	ai	$3,$3,128
	il	$7,0x20		# PUT of this block
	brsl	$lr,move
	ai	$10,$10,1
	ai	$11,$11,1
	ceqi	$5,$11,3
	andc	$11,$11,$5
	ceqi	$5,$10,6
	brz	$5,loop
	il	$5,7
	brsl	$lr,wait	# for all
	stop	1

# Fetches the next block, where there is one, behind the PUT of its buffer; its link is $20.
fetch:	ceqi	$5,$12,6
	binz	$5,$20
	il	$5,1
	shl	$5,$5,$13
	brsl	$lr,wait	# for the PUT
	lr	$4,$13
	shli	$3,$12,4
	il	$7,0x40		# GET
	brsl	$lr,move
	ai	$12,$12,1
	ai	$13,$13,1
	ceqi	$5,$13,3
	andc	$13,$13,$5
	bi	$20

# Issues the command in $7 between buffer $4, whose tag is its number, and the address $3 of main memory.
move:	shli	$5,$4,4
	ila	$6,buffers
	a	$5,$5,$6
	wrch	$ch16,$5	# MFC_LSA
	wrch	$ch18,$3	# MFC_EAL
	il	$6,16
	wrch	$ch19,$6	# MFC_Size
	wrch	$ch20,$4	# MFC_TagID
	wrch	$ch21,$7	# MFC_Cmd
	bi	$lr

# Waits for the tags in $5.
wait:	wrch	$ch22,$5	# MFC_WrTagMask
	il	$5,2
	wrch	$ch23,$5	# MFC_WrTagUpdate: when all of them is done
	rdch	$5,$ch24	# MFC_RdTagStat
	bi	$lr

	.data
	.align	7
buffers: .space	48
