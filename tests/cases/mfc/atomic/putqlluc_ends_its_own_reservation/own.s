# GETLLAR of line 0, PUTQLLUC of it to its end, and PUTLLC of it: its status, in the last register, is 1.
	.text
_start:	ila	$3,line
	wrch	$ch16,$3
	il	$4,0xd0
	wrch	$ch21,$4	# GETLLAR
	rdch	$5,$ch27
	il	$4,7
	wrch	$ch19,$4	# a size that no PUT has
	il	$4,0xb8
	wrch	$ch21,$4	# PUTQLLUC
	il	$4,1
	wrch	$ch22,$4
	il	$4,2
	wrch	$ch23,$4
	rdch	$6,$ch24	# it is done
	rchcnt	$7,$ch27	# and no atomic status tells of it
	il	$4,0xb4
	wrch	$ch21,$4	# PUTLLC
	rdch	$8,$ch27
	stop	0
	.data
	.align	7
line:	.long	0x12345678
	.space	124
