# Writes an instruction over another one, and executes it: it sets $5, where the source has $4.
	.text
_start:	lqr	$3,new
	stqr	$3,place
	br	place
	.align	4
place:	il	$4,1
	lnop
	lnop
	stop	1
	.data
	.align	4
new:	.long	0x40800105,0x00200000,0x00200000,0x00000001
