	.file	"calls.c"
# The start that belongs to a compiled program; the rest is a compiler's.
	.text
	.global	_start
_start:	ila	$sp,0x3ffd0	# main saves its link at 16($sp), which has to be below 0x40000
	brsl	$lr,main
	stop	1

	.align	3
	.global	squares
	.type	squares, @function
squares:
	ori	$2,$3,0
	il	$3,0
	hbrr	.L9,.L2
.L2:
	mpy	$4,$2,$2
	ai	$2,$2,-1
	a	$3,$3,$4
.L9:
	brnz	$2,.L2
	bi	$lr
	.size	squares, .-squares
	.align	3
	.global	main
	.type	main, @function
main:
	stqd	$lr,16($sp)
	stqd	$sp,-32($sp)
	ai	$sp,$sp,-32
	il	$3,4
	brsl	$lr,squares
	lqr	$2,result
	cwd	$4,0($sp)
	shufb	$5,$3,$2,$4
	stqr	$5,result
	il	$3,0
	ai	$sp,$sp,32
	lqd	$lr,16($sp)
	bi	$lr
	.size	main, .-main
	.global	result
	.data
	.align	4
	.type	result, @object
	.size	result, 4
result:
	.long	0
	.ident	"GCC: (GNU) 4.5"
