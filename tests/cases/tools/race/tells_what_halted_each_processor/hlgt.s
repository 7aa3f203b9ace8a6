_start:	il	$3,-5
	il	$4,6
	hlgt	$4,$3
	hlgt	$3,$4
