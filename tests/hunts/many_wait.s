# Waits for a message that nobody sends.
	.text
_start:	rdch	$3,$ch29
	stop	1
