# Waits for each of three events, and then reads what came; at last it waits for a signal that nobody sends.
	.text
	il	$3,0x310
	wrch	$ch1,$3		# SPU_WrEventMask: both signals, and the inbound mailbox
	il	$9,0
wait:	rdch	$4,$ch0		# SPU_RdEventStat
	wrch	$ch2,$4		# SPU_WrEventAck
	or	$9,$9,$4
	ceq	$10,$9,$3
	brz	$10,wait
	rdch	$6,$ch3		# SPU_RdSigNotify1
	rdch	$7,$ch4		# SPU_RdSigNotify2
	rdch	$8,$ch29	# SPU_RdInMbox
	rdch	$11,$ch11	# SPU_RdEventMask
	il	$3,0
	wrch	$ch1,$3		# SPU_WrEventMask: no event
	rchcnt	$12,$ch0
	rdch	$13,$ch4	# SPU_RdSigNotify2
	stop	1
