# Adds what this processor has to a total, the word at 0 of main memory. Many runs leave a wrong one: docs/guide/debugging.md finds out why.
	.text
_start:	lqa	$14,mine
	ila	$81,line
	il	$83,0
	il	$3,0xd0
	brsl	$lr,atomic	# GETLLAR
	lqa	$21,line
	a	$21,$21,$14
	br	store
again:	il	$3,0xd0
	brsl	$lr,atomic	# GETLLAR: the reservation is gone
store:	stqa	$21,line
	il	$3,0xb4
	brsl	$lr,atomic	# PUTLLC
	brnz	$20,again
	stop	1

# Does the atomic command $3 on the line, and puts its status into $20.
atomic:	wrch	$ch16,$81	# MFC_LSA
	wrch	$ch18,$83	# MFC_EAL
	wrch	$ch21,$3	# MFC_Cmd
	rdch	$20,$ch27	# MFC_RdAtomicStat
	bi	$lr

	.data
	.org	0x400
mine:	.space	16
	.align	7
line:	.space	128
