# Waits for the flag of handoff_sender.s, in the line at 0, and then gets its block. It doesn't poll: where the flag isn't set it waits until its
# reservation of the line is lost, and then looks again.
	.text
_start:	il	$3,0x400
	wrch	$ch1,$3		# SPU_WrEventMask: a reservation that is lost
	ila	$3,flag
	wrch	$ch16,$3	# MFC_LSA
	il	$3,0
	wrch	$ch18,$3	# MFC_EAL
look:	il	$3,0xd0
	wrch	$ch21,$3	# MFC_Cmd: GETLLAR
	rdch	$3,$ch27	# MFC_RdAtomicStat
	lqa	$3,flag
	brnz	$3,set
	rdch	$3,$ch0		# SPU_RdEventStat: waits for the event
	wrch	$ch2,$3		# SPU_WrEventAck: before it looks, so that no event is lost
	br	look
set:	ila	$3,block	# GET of the block, with tag 3
	wrch	$ch16,$3	# MFC_LSA
	il	$3,0x100
	wrch	$ch18,$3	# MFC_EAL
	il	$3,256
	wrch	$ch19,$3	# MFC_Size
	il	$3,3
	wrch	$ch20,$3	# MFC_TagID
	il	$3,0x40
	wrch	$ch21,$3	# MFC_Cmd
	il	$3,8
	wrch	$ch22,$3	# MFC_WrTagMask: tag 3
	il	$3,2
	wrch	$ch23,$3	# MFC_WrTagUpdate: when all of it is done
	rdch	$3,$ch24	# MFC_RdTagStat
	lqa	$3,block
	stop	1
	.data
	.align	7
flag:	.space	128
	.org	0x800
block:	.space	256
