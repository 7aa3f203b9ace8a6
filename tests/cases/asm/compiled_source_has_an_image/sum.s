	.file	"sum.c"
	.text
	.global _start
_start:	brsl	$lr,main
	stop	0
	.align	3
	.global	main
	.type	main, @function
main:	ila	$2,table
	il	$3,0
	il	$4,4
	hbrr	.L9,.L2
.L2:	lqd	$5,0($2)
	a	$3,$3,$5
	ai	$2,$2,16
	ai	$4,$4,-1
.L9:	brnz	$4,.L2
	stqd	$3,-64($2)
	bi	$lr
	.size	main, .-main
	.section	.rodata
	.align	4
table:	.long	1,2,3,4,5,6,7,8
	.long	9,10,11,12,13,14,15,16
	.ident	"GCC: (GNU) 4.5"
