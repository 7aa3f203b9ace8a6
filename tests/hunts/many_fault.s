# Issues a PUT whose size the MFC refuses.
	.text
_start:	il	$3,7
	wrch	$ch19,$3	# size
	il	$4,0x20		# PUT
	wrch	$ch21,$4
	stop	1
