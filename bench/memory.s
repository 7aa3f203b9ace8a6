# A loop with loads, stores and branches: sums a table of 64 quadwords, and stores it shifted.
	.text
_start:	ila	$2,table
	ila	$3,copy
	il	$4,64
again:	lqd	$5,0($2)
	lqx	$6,$2,$4
	a	$7,$7,$5
	rotqbyi	$8,$6,1
	stqd	$8,0($3)
	ai	$2,$2,16
	ai	$3,$3,16
	ai	$4,$4,-1
	brsl	$lr,leaf
	brnz	$4,again
	br	_start
leaf:	xor	$9,$9,$5
	biz	$9,$lr
	bi	$lr

	.data
	.align	4
table:	.space	1088
copy:	.space	1024
