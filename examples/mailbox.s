# Reads two numbers from its inbound mailbox, and writes their sum to its outbound mailbox.
	.text
_start:	rdch	$3,$ch29	# channel 29 is the inbound mailbox: waits until a number is there
	rdch	$4,$ch29	# each read takes the oldest number
	a	$5,$3,$4	# adds the four words; channels use word 0, the preferred slot
	wrch	$ch28,$5	# channel 28 is the outbound mailbox: waits until its one place is free
	stop	1
