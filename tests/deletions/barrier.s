# Three processors, two phases with a barrier on the line at 0 after each. In the first, processor P puts P + 1 at 0x80 + 16 P; behind the barrier it gets
# its right neighbour's quadword, and puts the sum of the two at 0x100 + 16 P; behind the second barrier it gets the neighbour's sum. P stands at 0x600, by
# a `bytes` line.
	.text
_start:	il	$25,0x400
	wrch	$ch1,$25	# SPU_WrEventMask: a reservation that is lost
	lqa	$50,number	# P
	ai	$51,$50,1
	ceqi	$52,$51,3
	andc	$52,$51,$52	# the right neighbour
	shli	$53,$50,4
	shli	$54,$52,4
	ai	$4,$53,0x80
	stqa	$51,mine
	ila	$3,mine
	brsl	$40,put
	brsl	$40,barrier
	ila	$3,theirs
	ai	$4,$54,0x80
	brsl	$40,get
	lqa	$25,theirs
	a	$51,$51,$25
	stqa	$51,mine
	ila	$3,mine
	ai	$4,$53,0x100
	brsl	$40,put
	brsl	$40,barrier
	ila	$3,theirs
	ai	$4,$54,0x100
	brsl	$40,get
	stop	1

# Transfers 16 bytes between $3 of the store and $4 of the memory, and waits.
put:	il	$7,0x20
	br	move
get:	il	$7,0x40
move:	wrch	$ch16,$3	# MFC_LSA
	wrch	$ch18,$4	# MFC_EAL
	il	$5,16
	wrch	$ch19,$5	# MFC_Size
	wrch	$ch21,$7	# MFC_Cmd
	il	$5,1
	wrch	$ch22,$5	# MFC_WrTagMask: tag 0
	il	$5,2
	wrch	$ch23,$5	# MFC_WrTagUpdate: when all of it is done
	rdch	$5,$ch24	# MFC_RdTagStat
	bi	$40

# Adds 1 to the counter, which never goes back: the n-th barrier is left at 3 n. It doesn't poll: where some aren't there yet it waits until its reservation
# of the line is lost, and then looks again.
barrier: ai	$55,$55,3
	ila	$3,line
	wrch	$ch16,$3	# MFC_LSA
	il	$4,0
	wrch	$ch18,$4	# MFC_EAL
add:	il	$5,0xd0
	wrch	$ch21,$5	# MFC_Cmd: GETLLAR
	rdch	$6,$ch27	# MFC_RdAtomicStat
	lqa	$6,line
	ai	$6,$6,1
	stqa	$6,line
	il	$5,0xb4
	wrch	$ch21,$5	# MFC_Cmd: PUTLLC
	rdch	$6,$ch27	# MFC_RdAtomicStat: 0 where it stored
	brnz	$6,add
look:	il	$5,0xd0
	wrch	$ch21,$5	# MFC_Cmd: GETLLAR
	rdch	$6,$ch27	# MFC_RdAtomicStat
	lqa	$6,line
	cgt	$6,$55,$6
	brz	$6,back
	rdch	$6,$ch0		# SPU_RdEventStat: waits for the event
	wrch	$ch2,$6		# SPU_WrEventAck: before it looks, so that no event is lost
	br	look
back:	bi	$40

	.data
	.align	7
line:	.space	128
mine:	.space	16
	.org	0x600
number:	.space	16
theirs:	.space	16
