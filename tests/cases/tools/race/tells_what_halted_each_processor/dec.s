_start:	rdch	$3,$ch8
