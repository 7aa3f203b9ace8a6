# A buffer that is filled again only when its PUT is done: the status orders the pieces of the PUT before what follows its reading.
# Without that line it is a race: reuse_race.s.
	.text
_start:	ila	$3,buffer
	il	$4,1
	stqd	$4,0($3)
	wrch	$ch16,$3	# MFC_LSA; the address is 0, and so is the tag
	il	$5,16
	wrch	$ch19,$5	# MFC_Size
	il	$6,0x20
	wrch	$ch21,$6	# MFC_Cmd: PUT
	il	$7,1
	wrch	$ch22,$7	# MFC_WrTagMask: tag 0
	il	$8,2
	wrch	$ch23,$8	# MFC_WrTagUpdate: when all of it is done
	rdch	$9,$ch24		# MFC_RdTagStat: waits for the PUT
	il	$4,2
	stqd	$4,0($3)
	wrch	$ch18,$5	# MFC_EAL: 16
	wrch	$ch21,$6	# MFC_Cmd: PUT
	wrch	$ch23,$8
	rdch	$10,$ch24
	stop	1

	.data
	.align	7
buffer:	.space	16
