# COUNT GETs into one place, one wait for all of them, and loads of that place without an end.
	.text
_start:	ila	$3,0x8000
	wrch	$ch16,$3	# MFC_LSA
	il	$4,0
	wrch	$ch18,$4	# MFC_EAL
	il	$5,16
	wrch	$ch19,$5	# MFC_Size
	il	$6,0
	wrch	$ch20,$6	# MFC_TagID
	il	$7,1
	wrch	$ch22,$7	# MFC_WrTagMask
	il	$8,0x40		# GET
	il	$9,2
	ila	$10,COUNT
issue:	wrch	$ch21,$8	# MFC_Cmd
	ai	$10,$10,-1
	brnz	$10,issue
	wrch	$ch23,$9	# MFC_WrTagUpdate
	rdch	$11,$ch24	# MFC_RdTagStat
load:	lqa	$12,0x8000
	br	load
