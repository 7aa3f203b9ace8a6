# A list whose elements lie at 0x3ffe0, 0x3fff3 and 0x40000 of the store, which ends there.
	ila	$3,0x3ffef	# the low four bits are cleared
	wrch	$ch16,$3
	ila	$3,list
	wrch	$ch18,$3
	il	$3,24
	wrch	$ch19,$3
	il	$3,0x44
	wrch	$ch21,$3	# GETL
	stop	1

	.data
list:	.long	16, 0x80
	.long	1, 0x93
	.long	16, 0xe0
