# Processor 0 has a fault; processor 1 spends the budget in a loop, of which each run ends at another place.
_start: rchcnt	$3,$ch29
	brz	$3,_start
	rdch	$3,$ch29
	brz	$3,fault
loop:	ai	$4,$4,1
	ai	$4,$4,1
	ai	$4,$4,1
	ai	$4,$4,1
	ai	$4,$4,1
	ai	$4,$4,1
	br	loop
fault:	il	$5,7
	wrch	$ch19,$5
	il	$6,0x20
	wrch	$ch21,$6
	stop	1
