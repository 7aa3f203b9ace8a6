# Waits for a signal in register 1, and then gets the block of signal_sender.s.
	.text
_start:	rdch	$3,$ch3		# SPU_RdSigNotify1: waits for the signal
	ila	$3,block	# GET of the block, with tag 3
	wrch	$ch16,$3	# MFC_LSA
	il	$3,0x100
	wrch	$ch18,$3	# MFC_EAL
	il	$3,256
	wrch	$ch19,$3	# MFC_Size
	il	$3,3
	wrch	$ch20,$3	# MFC_TagID
	il	$3,0x40
	wrch	$ch21,$3	# MFC_Cmd: GET
	il	$3,8
	wrch	$ch22,$3	# MFC_WrTagMask: tag 3
	il	$3,2
	wrch	$ch23,$3	# MFC_WrTagUpdate: when all of it is done
	rdch	$3,$ch24	# MFC_RdTagStat
	lqa	$3,block
	stop	1
	.data
	.org	0x800
block:	.space	256
