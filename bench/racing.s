# A loop that puts 16 bytes into one place of main memory and waits for them: the transfers of several processors race.
	.text
_start:	ila	$3,0x8000
	wrch	$ch16,$3	# MFC_LSA
	il	$4,0
	wrch	$ch18,$4	# MFC_EAL
	il	$5,16
	wrch	$ch19,$5	# MFC_Size
	il	$6,0
	wrch	$ch20,$6	# MFC_TagID
	il	$7,1
	wrch	$ch22,$7	# MFC_WrTagMask
	il	$8,0x20		# PUT
	il	$9,2
again:	wrch	$ch21,$8	# MFC_Cmd
	wrch	$ch23,$9	# MFC_WrTagUpdate
	rdch	$11,$ch24	# MFC_RdTagStat
	br	again
