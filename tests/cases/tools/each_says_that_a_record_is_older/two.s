	il	$3,1
	rdch	$4,$ch29	# the record is of a source without this line
	stop	1
