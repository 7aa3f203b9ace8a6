# Halts: 9 is greater than 7.
	.text
_start:	il	$3,7
	il	$4,9
	hgt	$4,$3		# the halt instruction
	stop	1
