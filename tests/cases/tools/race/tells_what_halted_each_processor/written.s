_start:	lqa	$3,new
	il	$4,9
	stqa	$3,old
	bra	old
	.align	4
old:	stop	1
	.data
	.align	4
new:	.long	0x7f024200,0,0,0
