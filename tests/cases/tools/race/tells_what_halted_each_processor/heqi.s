_start:	il	$3,-5
	heqi	$3,-5
