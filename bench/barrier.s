# Eight processors, two phases with a barrier on the line at 0 after each. In the first, processor P puts P + 1 at 0x80 + 16 P; behind the
# barrier it gets its right neighbour's quadword, and puts the sum of the two at 0x100 + 16 P; behind the second barrier it gets the
# neighbour's sum. P stands at 0x3000, by a `bytes` line.
_start:	ila	$25,0x3000
	lqd	$50,0($25)	# P
	ai	$51,$50,1
	andi	$52,$51,7	# the right neighbour
	shli	$53,$50,4
	shli	$54,$52,4
	ai	$4,$53,0x80
	stqa	$51,mine
	ila	$3,mine
	brsl	$40,put
	brsl	$40,barrier
	ila	$3,theirs
	ai	$4,$54,0x80
	brsl	$40,get
	lqa	$25,theirs
	a	$51,$51,$25
	stqa	$51,mine
	ila	$3,mine
	ai	$4,$53,0x100
	brsl	$40,put
	brsl	$40,barrier
	ila	$3,theirs
	ai	$4,$54,0x100
	brsl	$40,get
	stop	1

# Transfers 16 bytes between $3 of the store and $4 of the memory, and waits.
put:	il	$7,0x20
	br	move
get:	il	$7,0x40
move:	wrch	$ch16,$3	# MFC_LSA
	wrch	$ch18,$4	# MFC_EAL
	il	$5,16
	wrch	$ch19,$5	# MFC_Size
	wrch	$ch21,$7	# MFC_Cmd
	il	$5,1
	wrch	$ch22,$5	# MFC_WrTagMask
	il	$5,2
	wrch	$ch23,$5	# MFC_WrTagUpdate
	rdch	$5,$ch24	# MFC_RdTagStat
	bi	$40

# Adds 1 to the counter, which never goes back, and polls it: the n-th barrier is left at 8 n.
barrier: ai	$55,$55,8
	ila	$3,line
	wrch	$ch16,$3
	il	$4,0
	wrch	$ch18,$4
add:	il	$5,0xd0
	wrch	$ch21,$5	# GETLLAR
	rdch	$6,$ch27
	lqa	$6,line
	ai	$6,$6,1
	stqa	$6,line
	il	$5,0xb4
	wrch	$ch21,$5	# PUTLLC
	rdch	$6,$ch27
	brnz	$6,add
spin:	il	$5,0xd0
	wrch	$ch21,$5	# GETLLAR
	rdch	$6,$ch27
	lqa	$6,line
	cgt	$6,$55,$6
	brnz	$6,spin
	bi	$40
	.data
	.align	7
line:	.space	128
mine:	.space	16
theirs:	.space	16
