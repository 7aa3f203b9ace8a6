# Gives five values to the host, each behind some work.
	.text
_start:	il	$80,5
give:	il	$3,6		# the work
work:	ai	$3,$3,-1
	brnz	$3,work
	wrch	$ch28,$80	# SPU_WrOutMbox
	ai	$80,$80,-1
	brnz	$80,give
	stop	1
