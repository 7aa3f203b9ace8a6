# A lock for readers and a writer, in the line at 0: how many readers are in, or -1 where the writer is. Processor 0 writes three times, the others read three
# times each. Many runs spend their budget: docs/guide/debugging.md finds out why.
	.text
_start:	lqa	$80,me
	ila	$81,line
	il	$82,0		# how many times it was in
	il	$83,0
	brnz	$80,enter

write:	il	$3,0xd0
	brsl	$lr,atomic	# GETLLAR
	lqa	$21,line
	brnz	$21,write
	il	$21,-1
	stqa	$21,line
	il	$3,0xb4
	brsl	$lr,atomic	# PUTLLC
	brnz	$20,write
	stqa	$83,line
	il	$3,0xb0
	brsl	$lr,atomic	# PUTLLUC: the lock is free again
	ai	$82,$82,1
	ceqi	$22,$82,3
	brz	$22,write
	stop	1

enter:	il	$3,0xd0
	brsl	$lr,atomic
	lqa	$21,line
	cgti	$22,$21,-1
	brz	$22,enter
	ai	$21,$21,1
	stqa	$21,line
	il	$3,0xb4
	brsl	$lr,atomic
	brnz	$20,enter
leave:	il	$3,0xd0
	brsl	$lr,atomic
	lqa	$21,line
	ai	$21,$21,-1
	stqa	$21,line
	il	$3,0xb4
	brsl	$lr,atomic
	ai	$82,$82,1
	ceqi	$22,$82,3
	brz	$22,enter
	stop	1

# Does the atomic command $3 on the line, and puts its status into $20.
atomic:	wrch	$ch16,$81	# MFC_LSA
	wrch	$ch18,$83	# MFC_EAL
	wrch	$ch21,$3	# MFC_Cmd
	rdch	$20,$ch27	# MFC_RdAtomicStat
	bi	$lr

	.data
	.org	0x400
me:	.space	16
	.align	7
line:	.space	128
