_start:	il	$3,7
	hgti	$3,-1
