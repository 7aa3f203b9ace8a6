	.file	"count.c"
	.section	.debug_abbrev,"",@progbits
.Ldebug_abbrev0:
.text
.Ltext0:
	.align	3
	.global	main
	.type	main, @function
main:
.LFB0:
	.file 1 "count.c"
	.loc 1 7 0
	.cfi_startproc
	/* the frame
	   of main */
	stqd	$lr,16($sp)
	stqd	$sp,-32($sp)
	nop	127
	ai	$sp,$sp,-32
.LCFI0:
	hbrr	.L4,count
#APP
	nop $127
#NO_APP
.L4:
	brsl	$lr,count
	lqr	$2,total
	cwd	$4,0($sp)
	shufb	$5,$3,$2,$4
	stqr	$5,total
	ai	$sp,$sp,32
	lqd	$lr,16($sp)
	hbr	.L5,$lr
	lnop
.L5:
	bi	$lr
	.cfi_endproc
	.size	main, .-main
	.comm	total,4,16
	.local	once
	.comm	once,4,4
	.section	.rodata.str1.8,"aMS",@progbits,1
	.align	3
.LC0:
	.string	"it's #1; \"x41\""
	.string	"tab\t\303\251\b"
	.section	.rodata
	.align	4
	.type	primes, @object
	.size	primes, 32
primes:
	.int	2
	.int	3
	.zero	24
	.section	.init,"ax",@progbits
	.p2align 3,,7
before:	lnop
	.section	.debug_info,"",@progbits
.Ldebug_info0:
	.uleb128 0x1
	.4byte	.Ldebug_abbrev0
	.section	.debug_str,"MS",@progbits,1
	.string	"GNU C"
	.ident	"GCC: (GNU) 4.5"
	.pushsection .text
	lnop
	.popsection
