	il	$3,MFC_SNDSIG_CMD
	wrch	$ch21,$3
	il	$3,MFC_SIGNAL_NOTIFY_1_EVENT
	il	$3,x
	rdch	$4,$ch3
