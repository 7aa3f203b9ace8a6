_start:	il	$3,-5
	il	$4,-5
	heq	$3,$4
