# Hands a block on by a flag, and waits for nothing: the block by PUTB, and behind it the flag, in the line at 0, by PUTQLLUC of the same tag.
# The barrier puts the flag behind the block, and the line orders the flag before the GETLLAR that finds it. flag_receiver.s waits for it.
	.text
_start:	il	$3,0x77
	stqa	$3,block
	il	$3,1
	stqa	$3,flag
	ila	$3,block	# PUT of the block, with tag 3 and a barrier
	wrch	$ch16,$3	# MFC_LSA
	il	$3,0x100
	wrch	$ch18,$3	# MFC_EAL
	il	$3,256
	wrch	$ch19,$3	# MFC_Size
	il	$3,3
	wrch	$ch20,$3	# MFC_TagID
	il	$3,0x21
	wrch	$ch21,$3	# MFC_Cmd: PUTB
	ila	$3,flag
	wrch	$ch16,$3	# MFC_LSA
	il	$3,0
	wrch	$ch18,$3	# MFC_EAL
	il	$3,0xb8
	wrch	$ch21,$3	# MFC_Cmd: PUTQLLUC, with the same tag
	stop	1
	.data
	.align	7
flag:	.space	128
block:	.space	256
