# A GETL of two elements, of which the second is at fault while the processor runs.
	ila	$3,0x1000
	wrch	$ch16,$3	# MFC_LSA
	ila	$4,0x2000
	wrch	$ch18,$4	# the list
	il	$5,16
	wrch	$ch19,$5	# two elements
	il	$6,0x44
	wrch	$ch21,$6	# GETL, command 0
	il	$7,1
	stop	1		# is never reached
