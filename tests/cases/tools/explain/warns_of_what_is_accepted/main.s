main:	ila	$sp,0x3fff0
	rotmi	$3,$4,5		# shifts right by 59: -5 shifts by 5
	rotmai	$3,$4,-5
	rotqmbyi $3,$4,127	# is -1
	shli	$3,$4,5
	br	8
	bra	8
	ila	$sp,0x3ffe0
	stop	1
