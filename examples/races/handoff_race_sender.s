# The race: the block goes by PUT, without a barrier, so that the flag doesn't wait for it. What mends it is handoff_sender.s.
	.text
_start:	il	$3,0x77
	stqa	$3,block
	il	$3,1
	stqa	$3,flag
	ila	$3,block	# PUT of the block, with tag 3
	wrch	$ch16,$3	# MFC_LSA
	il	$3,0x100
	wrch	$ch18,$3	# MFC_EAL
	il	$3,256
	wrch	$ch19,$3	# MFC_Size
	il	$3,3
	wrch	$ch20,$3	# MFC_TagID
	il	$3,0x20
	wrch	$ch21,$3	# MFC_Cmd: PUT
	ila	$3,flag
	wrch	$ch16,$3	# MFC_LSA
	il	$3,0
	wrch	$ch18,$3	# MFC_EAL
	il	$3,0xb8
	wrch	$ch21,$3	# MFC_Cmd: PUTQLLUC, with the same tag
	stop	1
	.data
	.align	7
flag:	.space	128
block:	.space	256
