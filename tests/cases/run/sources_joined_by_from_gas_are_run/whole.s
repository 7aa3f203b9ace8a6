_start:	ila	$sp,0x3ffd0
	brsl	$lr,main
	stop	1
	.align	3
step.1:
	ai	$3,$3,1
	bi	$lr
	.align	3
main:
	stqd	$lr,16($sp)
	stqd	$sp,-32($sp)
	ai	$sp,$sp,-32
	lqa	$3,.LC0.1
	brsl	$lr,step.1
	brsl	$lr,count
.L2.1:	stqa	$3,shared
	ai	$sp,$sp,32
	lqd	$lr,16($sp)
	bi	$lr
	.section	.rodata
	.align	4
.LC0.1:
	.int	4,0,0,0
	.text
count:
	ori	$2,$3,0
	il	$3,0
.L1_1.2:	brz	$2,.L1_2.2
	a	$3,$3,$2
	brsl	$75,step.2
	br	.L1_1.2
.L1_2.2:	lqa	$4,.LC0.2
	a	$3,$3,$4
	bi	$lr
step.2:
	ai	$2,$2,-1
.L2.2:	bi	$75
	.section	.rodata
	.align	4
.LC0.2:
	.int	100,0,0,0
	.bss
	.align	4
shared:
	.space	16
