# Lets each of the nine events happen, and looks at them meanwhile. Its number, 0 or 1, stands at `me`.
	.text
_start:	il	$3,-1
	wrch	$ch1,$3		# SPU_WrEventMask: all events
	il	$80,3		# rounds
	lqr	$81,me
	fsmbi	$82,0xf000
	and	$81,$81,$82
again:	il	$3,0
	wrch	$ch18,$3	# MFC_EAL
	ila	$20,line
	wrch	$ch16,$20	# MFC_LSA
	il	$3,0xd0
	wrch	$ch21,$3	# MFC_Cmd: GETLLAR of the line that both put into
	rdch	$4,$ch27	# MFC_RdAtomicStat
	brsl	$lr,look
	ila	$3,into
	wrch	$ch16,$3	# MFC_LSA
	ila	$3,list
	wrch	$ch18,$3	# MFC_EAL
	il	$3,16
	wrch	$ch19,$3	# MFC_Size
	il	$3,0x44
	wrch	$ch21,$3	# MFC_Cmd: GETL, which stalls behind each of its two elements
	rdch	$4,$ch25	# MFC_RdListStallStat
	ila	$20,block
	wrch	$ch16,$20	# MFC_LSA
	il	$3,16
	wrch	$ch19,$3	# MFC_Size
	il	$3,0
	wrch	$ch18,$3	# MFC_EAL
	il	$21,15
	il	$3,0x22
fill:	wrch	$ch21,$3	# MFC_Cmd: PUTF, which waits for the list: now all places of the queue are taken
	ai	$21,$21,-1
	brnz	$21,fill
	il	$3,0
	wrch	$ch26,$3	# MFC_WrListStallAck
	rdch	$4,$ch25
	wrch	$ch26,$3
	brsl	$lr,look
	stqr	$80,block
	xori	$5,$81,1
	shli	$5,$5,1		# register 1 of the other processor in the first round, else 2
	ceqi	$6,$80,3
	ai	$6,$6,1
	a	$5,$5,$6
	wrch	$ch18,$5	# MFC_EAL
	il	$3,4
	wrch	$ch19,$3	# MFC_Size
	il	$3,0xa1
	wrch	$ch21,$3	# MFC_Cmd: SNDSIGB
	brsl	$lr,look
	il	$3,1
	wrch	$ch22,$3	# MFC_WrTagMask
	il	$3,2
	wrch	$ch23,$3	# MFC_WrTagUpdate
	rdch	$4,$ch24	# MFC_RdTagStat
	brsl	$lr,look
	wrch	$ch28,$80	# SPU_WrOutMbox
	wrch	$ch30,$80	# SPU_WrOutIntrMbox
	rdch	$4,$ch29	# SPU_RdInMbox
	brsl	$lr,look
	ai	$80,$80,-1
	brnz	$80,again
	stop	1
# Looks at the events and the signals.
look:	rchcnt	$30,$ch0
	brz	$30,none
	rdch	$30,$ch0	# SPU_RdEventStat
	wrch	$ch2,$30	# SPU_WrEventAck
none:	rdch	$31,$ch11	# SPU_RdEventMask
	rchcnt	$32,$ch3
	brz	$32,other
	rdch	$32,$ch3	# SPU_RdSigNotify1
other:	rchcnt	$33,$ch4
	brz	$33,back
	rdch	$33,$ch4	# SPU_RdSigNotify2
back:	bi	$lr
	.data
	.align	7
line:	.space	128
block:	.space	16
me:	.space	16
into:	.space	32
list:	.long	0x80000010,0,0x80000000,0
