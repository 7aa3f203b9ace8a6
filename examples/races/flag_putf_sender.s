# The race: the flag is written by a PUTF of the same tag. The fence puts it behind the block, in this queue; but no rule carries the word to
# the other processor. What mends it is flag_sender.s: the block is waited for, and the flag is written by PUTLLUC.
	.text
_start:	il	$3,0x77
	stqa	$3,block
	ila	$3,block	# PUT of the block, with tag 3
	wrch	$ch16,$3	# MFC_LSA
	il	$3,0x100
	wrch	$ch18,$3	# MFC_EAL
	il	$3,256
	wrch	$ch19,$3	# MFC_Size
	il	$3,3
	wrch	$ch20,$3	# MFC_TagID
	il	$3,0x20
	wrch	$ch21,$3	# MFC_Cmd
	il	$3,1
	stqa	$3,flag
	ila	$3,flag
	wrch	$ch16,$3	# MFC_LSA
	il	$3,0
	wrch	$ch18,$3	# MFC_EAL
	il	$3,128
	wrch	$ch19,$3	# MFC_Size
	il	$3,0x22
	wrch	$ch21,$3	# MFC_Cmd: PUTF, with the same tag
	il	$3,8
	wrch	$ch22,$3	# MFC_WrTagMask: tag 3
	il	$3,2
	wrch	$ch23,$3	# MFC_WrTagUpdate: when all of it is done
	rdch	$3,$ch24	# MFC_RdTagStat
	stop	1
	.data
	.align	7
flag:	.space	128
block:	.space	256
