_start:	ila $3,x
	stop 1
	.data
	.org 0x400
x:	.space 16
