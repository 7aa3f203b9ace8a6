# Waits by events for five values that the host passes on from processor 1, takes all that are there each time, and adds them up. Some runs hang:
# docs/guide/debugging.md finds out why.
	.text
_start:	il	$3,0x10		# inbound mailbox
	wrch	$ch1,$3		# SPU_WrEventMask
	il	$80,0		# the sum
	il	$81,0		# how many values were taken
wait:	rdch	$4,$ch0		# SPU_RdEventStat
more:	rchcnt	$5,$ch29	# SPU_RdInMbox
	brz	$5,empty
	rdch	$6,$ch29
	a	$80,$80,$6
	ai	$81,$81,1
	br	more
empty:	wrch	$ch2,$4		# SPU_WrEventAck
	ceqi	$7,$81,5
	brz	$7,wait
	stop	1
