# Adds three numbers from its inbound mailbox. Where only two are sent, it waits for the third for ever.
	.text
_start:	rdch	$3,$ch29	# at 0x0
	rdch	$4,$ch29	# at 0x4
	rdch	$5,$ch29	# at 0x8: is never made, since the mailbox stays empty
	a	$3,$3,$4
	a	$3,$3,$5
	wrch	$ch28,$3
	stop	1
