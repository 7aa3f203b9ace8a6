	ila	$3,buffer+0x10
	wrch	$ch16,$3
	il	$3,0xf0
	wrch	$ch18,$3
	il	$3,0x90
	wrch	$ch19,$3
	il	$3,0x20
	wrch	$ch21,$3	# PUT
	stop	1

	.data
	.long	7		# nothing names it
	.org	0x100
buffer:
alias:	.space	128
.L9:	.space	32
tail:	.space	16
