# Two PUTs of one tag; the second one is issued after the status of the tag was fixed, and before it is read.
	ila	$3,0x1000
	wrch	$ch16,$3	# MFC_LSA
	il	$4,16
	wrch	$ch19,$4	# MFC_Size; address 0, tag 0
	il	$5,0x20
	wrch	$ch21,$5	# PUT, command 0
	il	$6,1
	wrch	$ch22,$6	# the mask: tag 0
	il	$7,2
	wrch	$ch23,$7	# the status that is wanted: all done
	wrch	$ch18,$4	# address 16
	wrch	$ch21,$5	# PUT, command 1
	rdch	$8,$ch24	# speaks of command 0
	stop	1
