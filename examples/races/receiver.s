# Waits for a word, then brings the block from main memory.
	.text
_start:	rdch	$3,$ch29	# SPU_RdInMbox: waits for the host's word
	ila	$4,block
	wrch	$ch16,$4	# MFC_LSA; the address is 0, and so is the tag
	il	$5,16
	wrch	$ch19,$5	# MFC_Size
	il	$6,0x40
	wrch	$ch21,$6	# MFC_Cmd: GET
	il	$7,1
	wrch	$ch22,$7	# MFC_WrTagMask: tag 0
	il	$8,2
	wrch	$ch23,$8	# MFC_WrTagUpdate: when all of it is done
	rdch	$9,$ch24	# MFC_RdTagStat: waits for the GET
	lqd	$10,0($4)
	stop	1

	.data
	.align	7
block:	.space	16
