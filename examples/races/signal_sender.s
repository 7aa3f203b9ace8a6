# Hands a block on by a signal, and waits for nothing: the block by PUT, and behind it a word by SNDSIGF of the same tag, to signal register 1 of
# processor 1. The fence puts the delivery behind the block, and the register orders the delivery before its read. signal_receiver.s waits for it.
	.text
_start:	il	$3,0x77
	stqa	$3,block
	il	$3,1
	stqa	$3,word
	ila	$3,block	# PUT of the block, with tag 3
	wrch	$ch16,$3	# MFC_LSA
	il	$3,0x100
	wrch	$ch18,$3	# MFC_EAL
	il	$3,256
	wrch	$ch19,$3	# MFC_Size
	il	$3,3
	wrch	$ch20,$3	# MFC_TagID
	il	$3,0x20
	wrch	$ch21,$3	# MFC_Cmd: PUT
	ila	$3,word
	wrch	$ch16,$3	# MFC_LSA
	il	$3,2
	wrch	$ch18,$3	# MFC_EAL: register 1 of processor 1 (register r of processor q has the number 2 q + r - 1)
	il	$3,4
	wrch	$ch19,$3	# MFC_Size
	il	$3,0xa2
	wrch	$ch21,$3	# MFC_Cmd: SNDSIGF, with the same tag
	stop	1
	.data
	.align	7
word:	.space	128
block:	.space	256
