	.text
	.global	count
count:
	ori	$2,$3,0
	il	$3,0
1:	brz	$2,1f
	a	$3,$3,$2
	brsl	$75,step
	br	1b
1:	lqa	$4,.LC0
	a	$3,$3,$4
	bi	$lr
step:
	ai	$2,$2,-1
.L2:	bi	$75
	.comm	shared,16,16
	.section	.rodata
	.align	4
.LC0:	.int	100,0,0,0
