# A reduction tree of eight processors. At level l a processor with bit l set stores its sum and a flag by PUTLLUC into its line, 0x80 P, and
# is done; the others poll the line of P + 2^l by GETLLAR. P stands at 0x3000, by a `bytes` line.
_start:	ila	$25,0x3000
	lqd	$50,0($25)	# P
	ai	$51,$50,1	# the sum
	il	$52,1		# 2^l
	ila	$3,line
	wrch	$ch16,$3	# MFC_LSA
level:	and	$26,$50,$52
	brnz	$26,give
	a	$4,$50,$52	# the partner
	shli	$4,$4,7
	wrch	$ch18,$4	# MFC_EAL
poll:	il	$5,0xd0
	wrch	$ch21,$5	# GETLLAR
	rdch	$5,$ch27
	lqa	$25,line+16	# the flag
	brz	$25,poll
	lqa	$25,line
	a	$51,$51,$25
	shli	$52,$52,1
	ceqi	$26,$52,8
	brz	$26,level
	stop	1
give:	il	$25,1
	stqa	$51,line
	stqa	$25,line+16
	shli	$4,$50,7
	wrch	$ch18,$4
	il	$5,0xb0
	wrch	$ch21,$5	# PUTLLUC
	rdch	$5,$ch27
	stop	1
	.data
	.align	7
line:	.space	128
