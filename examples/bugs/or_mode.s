# Waits until both workers are done: each of them sends a bit to signal register 1.
	.text
_start:	il	$4,0
more:	rdch	$3,$ch3		# SPU_RdSigNotify1
	or	$4,$4,$3
	ceqi	$5,$4,3		# both bits?
	brz	$5,more
	stop	1
