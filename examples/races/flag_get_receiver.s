# The race: the flag's line is polled by GET, and a GET that finds the flag was not made to wait for it by anything. What mends it is
# flag_receiver.s: the line is polled by GETLLAR.
	.text
_start:	ila	$3,flag
	wrch	$ch16,$3	# MFC_LSA
	il	$3,0
	wrch	$ch18,$3	# MFC_EAL
	il	$3,128
	wrch	$ch19,$3	# MFC_Size
again:	il	$3,0x40
	wrch	$ch21,$3	# MFC_Cmd: GET
	il	$3,1
	wrch	$ch22,$3	# MFC_WrTagMask: tag 0
	il	$3,2
	wrch	$ch23,$3	# MFC_WrTagUpdate: when all of it is done
	rdch	$3,$ch24	# MFC_RdTagStat
	lqa	$3,flag
	brz	$3,again	# not yet
	ila	$3,block	# GET of the block, with tag 3
	wrch	$ch16,$3	# MFC_LSA
	il	$3,0x100
	wrch	$ch18,$3	# MFC_EAL
	il	$3,256
	wrch	$ch19,$3	# MFC_Size
	il	$3,3
	wrch	$ch20,$3	# MFC_TagID
	il	$3,0x40
	wrch	$ch21,$3	# MFC_Cmd
	il	$3,8
	wrch	$ch22,$3	# MFC_WrTagMask: tag 3
	il	$3,2
	wrch	$ch23,$3	# MFC_WrTagUpdate: when all of it is done
	rdch	$3,$ch24	# MFC_RdTagStat
	lqa	$3,block
	stop	1
	.data
	.align	7
flag:	.space	128
	.org	0x800
block:	.space	256
