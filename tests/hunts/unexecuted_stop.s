# A program whose only line is executed.
	.text
_start:	stop	1
