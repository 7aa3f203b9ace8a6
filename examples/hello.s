# Copies a greeting to address 0x100, capital by capital, and stops.
	.text
_start:	ila	$3,greeting
	ila	$4,0x100
	lqd	$5,0($3)	# sixteen bytes at once
	andbi	$6,$5,0x40	# 0x40 in each letter, zero in each other character
	rotqmbii $7,$6,-1	# 0x20 in each letter: the bit that makes it small
	andc	$5,$5,$7
	stqd	$5,0($4)
	stop	1

	.data
	.align	4
greeting: .asciz "hello, machine!"
