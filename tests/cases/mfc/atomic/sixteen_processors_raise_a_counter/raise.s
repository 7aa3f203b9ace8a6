# Raises the counter at 0x80 of main memory ten times, by GETLLAR and PUTLLC.
	.text
_start:	ila	$3,line
	wrch	$ch16,$3
	il	$4,0x80
	wrch	$ch18,$4
	il	$5,0xd0
	il	$6,0xb4
	il	$10,10

again:	wrch	$ch21,$5
	rdch	$7,$ch27
	lqd	$8,0($3)
	ai	$8,$8,1
	stqd	$8,0($3)
	wrch	$ch21,$6
	rdch	$9,$ch27
	brnz	$9,again
	ai	$10,$10,-1
	brnz	$10,again
	stop	1

	.data
	.align	7
line:	.space	128
