	.file	"sum.c"
	.text
	.align	3
	.global	main
	.type	main, @function
main:
	ila	$2,table
	ori	$6,$2,0
	il	$4,0
	il	$5,4
	hbrr	.L3,.L2
.L2:
	lqd	$7,0($2)
	ai	$2,$2,16
	ai	$5,$5,-1
	a	$4,$4,$7
.L3:
	brnz	$5,.L2
	stqd	$4,0($6)
	il	$3,0
	bi	$lr
	.size	main, .-main
	.global	table
	.data
	.align	4
	.type	table, @object
	.size	table, 64
table:
	.long	1,2,3,4,5,6,7,8
	.long	9,10,11,12,13,14,15,16
	.ident	"GCC: (GNU) 4.5"
