	.file	"m.c"
_start:	il	$3,1	# one
	stop	1
	.data
L_0:	one:	.long	1,2
	.align	4
	.text
last:	.long	two
	.section .rodata
two:	.string	"a:b"
	.byte 5
