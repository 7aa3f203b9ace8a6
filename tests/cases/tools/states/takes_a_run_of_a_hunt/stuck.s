	il $3,5
	rdch	$3,$ch29
