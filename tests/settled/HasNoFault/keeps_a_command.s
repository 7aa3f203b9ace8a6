# A command that passes its tests.
	il	$5,0xc0
	wrch	$ch21,$5	# BARRIER of tag 0
	stop	1
