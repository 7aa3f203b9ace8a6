# A list of one element that stalls, which is acknowledged each time; nobody waits for a command by its tag.
	.text
_start:	ila	$3,0x8000
	wrch	$ch16,$3	# MFC_LSA
	ila	$5,list
	wrch	$ch18,$5	# MFC_EAL: the list
	il	$6,8
	wrch	$ch19,$6	# MFC_Size: one element
	il	$9,1
	wrch	$ch20,$9	# MFC_TagID
	il	$8,0x24		# PUTL
again:	wrch	$ch21,$8	# MFC_Cmd
	rdch	$10,$ch25	# MFC_RdListStallStat
	wrch	$ch26,$9	# MFC_WrListStallAck
	br	again

	.data
	.org	0x10000
list:	.long	0x80000000,0
