	.text
	.align	3
step:
	ai	$3,$3,1
	bi	$lr
	.align	3
	.global	main
main:
	stqd	$lr,16($sp)
	stqd	$sp,-32($sp)
	ai	$sp,$sp,-32
	lqa	$3,.LC0
	brsl	$lr,step
	brsl	$lr,count
.L2:	stqa	$3,shared
	ai	$sp,$sp,32
	lqd	$lr,16($sp)
	bi	$lr
	.comm	shared,4,4
	.section	.rodata
	.align	4
.LC0:	.int	4,0,0,0
