	wrch	$ch29,$3	# SPU_RdInMbox
