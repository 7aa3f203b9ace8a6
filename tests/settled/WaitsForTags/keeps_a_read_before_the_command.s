# The status is read before the command is issued.
	il	$3,2
	wrch	$ch23,$3
	rdch	$4,$ch24
	il	$5,0xc0
	wrch	$ch21,$5	# BARRIER of tag 0
	stop	1
