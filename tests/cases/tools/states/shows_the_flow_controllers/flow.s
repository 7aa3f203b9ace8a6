	.text
_start:	ila	$3,0x400
	wrch	$ch16,$3	# MFC_LSA
	il	$4,128
	wrch	$ch18,$4	# MFC_EAL
	il	$6,0xd0
	wrch	$ch21,$6	# MFC_Cmd: GETLLAR, which is done
	il	$7,0xb4
	il	$5,0x60
	wrch	$ch19,$5	# MFC_Size
	il	$8,5
	wrch	$ch20,$8	# MFC_TagID
	il	$9,0x22
	wrch	$ch21,$9	# MFC_Cmd: PUTF
	wrch	$ch21,$7	# MFC_Cmd: PUTLLC, in its slot
	il	$10,0x30
	wrch	$ch22,$10	# MFC_WrTagMask
	il	$11,2
	wrch	$ch23,$11	# MFC_WrTagUpdate
	wrch	$ch28,$11	# SPU_WrOutMbox
	rdch	$12,$ch24
