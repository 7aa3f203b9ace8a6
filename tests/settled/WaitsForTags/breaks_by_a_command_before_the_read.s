# A command that is issued between the request and the read.
	il	$3,2
	wrch	$ch23,$3
	il	$5,0xc0
	wrch	$ch21,$5	# BARRIER of tag 0
	rdch	$4,$ch24
	stop	1
