_start:	il	$3,-1
	hlgti	$3,-1
	hlgti	$3,-2
