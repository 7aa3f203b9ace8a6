# A command behind a request whose status is never read.
	il	$3,2
	wrch	$ch23,$3
	il	$5,0xc0
	wrch	$ch21,$5	# BARRIER of tag 0
	stop	1
