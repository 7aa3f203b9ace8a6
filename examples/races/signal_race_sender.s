# The race: the word goes by SNDSIG, without a fence, so that it doesn't wait for the block, though the tag is the same. What mends it is signal_sender.s.
	.text
_start:	il	$3,0x77
	stqa	$3,block
	il	$3,1
	stqa	$3,word
	ila	$3,block	# PUT of the block, with tag 3
	wrch	$ch16,$3	# MFC_LSA
	il	$3,0x100
	wrch	$ch18,$3	# MFC_EAL
	il	$3,256
	wrch	$ch19,$3	# MFC_Size
	il	$3,3
	wrch	$ch20,$3	# MFC_TagID
	il	$3,0x20
	wrch	$ch21,$3	# MFC_Cmd: PUT
	ila	$3,word
	wrch	$ch16,$3	# MFC_LSA
	il	$3,2
	wrch	$ch18,$3	# MFC_EAL: register 1 of processor 1 (register r of processor q has the number 2 q + r - 1)
	il	$3,4
	wrch	$ch19,$3	# MFC_Size
	il	$3,0xa0
	wrch	$ch21,$3	# MFC_Cmd: SNDSIG, with the same tag
	stop	1
	.data
	.align	7
word:	.space	128
block:	.space	256
