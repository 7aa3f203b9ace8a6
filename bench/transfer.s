# A loop that issues sixteen GETs of 1,024 bytes, the sixteen parts of a block of 16,384 bytes, waits for all of
# them by their tag, and begins again. Each has eight pieces.
	.text
_start:	ila	$2,block
	il	$5,1024
	wrch	$ch19,$5	# MFC_Size
	il	$6,5
	wrch	$ch20,$6	# MFC_TagID
	il	$7,0x20
	wrch	$ch22,$7	# MFC_WrTagMask: the group of tag 5
	il	$8,0x40		# GET
	il	$9,2		# a tag update when all groups of the mask are done
round:	ori	$3,$2,0
	il	$4,0
	il	$10,16
issue:	wrch	$ch16,$3	# MFC_LSA
	wrch	$ch18,$4	# MFC_EAL
	wrch	$ch21,$8	# MFC_Cmd
	a	$3,$3,$5
	a	$4,$4,$5
	ai	$10,$10,-1
	brnz	$10,issue
	wrch	$ch23,$9	# MFC_WrTagUpdate
	rdch	$11,$ch24	# MFC_RdTagStat: waits for all sixteen
	br	round

	.data
	.align	7
block:	.space	16384
