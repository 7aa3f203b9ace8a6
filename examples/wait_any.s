# Waits for whatever comes first: a word from the host, a block that a GET brings, or a line that another processor stores. A program that read the
# mailbox would wait for the host alone. The events tell of all three, and one read of their status waits for any of them. When all have come, the
# program stops with the sum of what they brought.
	.text
_start:	ila	$3,block	# GET of the block, with tag 3
	wrch	$ch16,$3	# MFC_LSA
	il	$3,0x100
	wrch	$ch18,$3	# MFC_EAL
	il	$3,128
	wrch	$ch19,$3	# MFC_Size
	il	$3,3
	wrch	$ch20,$3	# MFC_TagID
	il	$3,0x40
	wrch	$ch21,$3	# MFC_Cmd: GET
	il	$3,8
	wrch	$ch22,$3	# MFC_WrTagMask: tag 3
	il	$3,2
	wrch	$ch23,$3	# MFC_WrTagUpdate: asks for a status when the block is there, and doesn't wait for it

	il	$20,0x411	# what is still to come, as event bits: 0x400 the line, 0x10 the word, 0x1 the block
	il	$21,0		# the sum of what came
	brsl	$lr,look	# reserves the line; a store before that loses no reservation, so no event tells of it

wait:	brz	$20,done
	wrch	$ch1,$20	# SPU_WrEventMask: the status has only what is still to come
	rdch	$4,$ch0		# SPU_RdEventStat: waits until it isn't 0; it may have several bits
	wrch	$ch2,$4		# SPU_WrEventAck: first, so that what comes from here on raises its event again

	andi	$5,$4,0x10	# the inbound mailbox isn't empty any more
	brz	$5,noword
	rdch	$6,$ch29	# SPU_RdInMbox: the word is there, this doesn't wait
	a	$21,$21,$6
	andc	$20,$20,$5

noword:	andi	$5,$4,0x1	# a tag status is there
	brz	$5,noblock
	rdch	$6,$ch24	# MFC_RdTagStat: the event says that it is there, but only this read orders the block before the load
	lqa	$6,block
	a	$21,$21,$6
	andc	$20,$20,$5

noblock: il	$5,0x400	# the reservation is lost
	and	$5,$4,$5
	brz	$5,wait
	brsl	$lr,look
	br	wait

done:	stqa	$21,sum
	stop	1

# Brings and reserves the line at 0 of main memory. Where its first word isn't 0 the other processor has stored it.
look:	ila	$6,line
	wrch	$ch16,$6	# MFC_LSA
	il	$6,0
	wrch	$ch18,$6	# MFC_EAL
	il	$6,0xd0
	wrch	$ch21,$6	# MFC_Cmd: GETLLAR
	rdch	$6,$ch27	# MFC_RdAtomicStat
	lqa	$6,line
	brz	$6,back
	a	$21,$21,$6
	il	$7,0x400
	andc	$20,$20,$7
back:	bi	$lr

	.data
	.org	0x400		# a fixed place, so that the machine file can name it
sum:	.space	16
	.align	7
line:	.space	128
block:	.space	128
