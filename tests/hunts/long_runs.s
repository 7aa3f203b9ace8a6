# 70,000 steps: 300 such runs have more than 20,000,000.
_start:	ila	$3,34999
loop:	ai	$3,$3,-1
	brnz	$3,loop
	stop	1
