# Adds 5 to a sum in main memory, which another processor does too, behind a spin lock. The lock is the first word of a line:
# 0 where it is free, 1 where a processor has it. It is taken by GETLLAR and PUTLLC, so two processors can't take it at once,
# and freed by PUTLLUC, which stores the line without a reservation: it is the taker's until then.
	.text
_start:	ila	$3,lock
	wrch	$ch16,$3	# MFC_LSA
	wrch	$ch18,$0	# MFC_EAL: the lock is line 0 of main memory
	il	$4,0xd0
	il	$5,0xb4
	il	$6,1

	# Take the lock.
try:	wrch	$ch21,$4	# MFC_Cmd: 0xd0 is GETLLAR
	rdch	$7,$ch27	# MFC_RdAtomicStat: waits until it is done
	lqd	$8,0($3)
	brnz	$8,try		# another processor has the lock: look again
	stqd	$6,0($3)
	wrch	$ch21,$5	# MFC_Cmd: 0xb4 is PUTLLC
	rdch	$9,$ch27	# 1 says that another processor was first
	brnz	$9,try

	# No other processor is here now: the sum may be brought, raised and put back by transfers.
	ila	$10,sum
	wrch	$ch16,$10	# MFC_LSA
	il	$11,0x80
	wrch	$ch18,$11	# MFC_EAL
	il	$12,16
	wrch	$ch19,$12	# MFC_Size; the tag is 0
	il	$13,0x40
	wrch	$ch21,$13	# MFC_Cmd: GET
	wrch	$ch22,$6	# MFC_WrTagMask: the group of tag 0
	il	$14,2
	wrch	$ch23,$14	# MFC_WrTagUpdate
	rdch	$15,$ch24	# MFC_RdTagStat: waits for the bytes
	lqd	$16,0($10)
	ai	$16,$16,5
	stqd	$16,0($10)
	il	$17,0x20
	wrch	$ch21,$17	# MFC_Cmd: PUT
	wrch	$ch23,$14
	rdch	$18,$ch24	# the sum has gone out, so the lock may be freed

	# Free the lock.
	stqd	$0,0($3)
	wrch	$ch16,$3	# MFC_LSA
	wrch	$ch18,$0	# MFC_EAL
	il	$19,0xb0
	wrch	$ch21,$19	# MFC_Cmd: 0xb0 is PUTLLUC
	rdch	$20,$ch27	# 2
	stop	1

	.data
	.align	7
lock:	.space	128
sum:	.space	16
