# 100,000 steps: 200 such runs have 20,000,000.
_start:	ila	$3,49999
loop:	ai	$3,$3,-1
	brnz	$3,loop
	stop	1
