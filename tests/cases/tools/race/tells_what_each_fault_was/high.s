	il	$3,0x8c
	wrch	$ch17,$3	# MFC_EAH
	il	$3,16
	wrch	$ch19,$3
	il	$3,0x22
	wrch	$ch21,$3	# PUTF
