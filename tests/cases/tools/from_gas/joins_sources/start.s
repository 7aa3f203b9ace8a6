	.text
	.global _start
_start:	ila	$sp,0x3ffd0
	brsl	$lr,main
	stop	1
