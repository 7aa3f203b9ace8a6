# Brings a block of 2,048 bytes from main memory, adds 1 to each of its words, and puts it back, again and again.
# bench/order.py gives each processor a block of its own: it writes the block's address in the place of BASE.
	.text
_start:	ila	$3,0x1000
	ila	$4,BASE
	il	$5,2048
	wrch	$ch16,$3	# MFC_LSA
	wrch	$ch18,$4	# MFC_EAL
	wrch	$ch19,$5	# MFC_Size; the tag is 0
	il	$6,1
	wrch	$ch22,$6	# MFC_WrTagMask
	il	$7,2
	il	$8,0x40		# GET
	il	$9,0x20		# PUT
round:	wrch	$ch21,$8	# MFC_Cmd
	wrch	$ch23,$7	# MFC_WrTagUpdate
	rdch	$10,$ch24	# MFC_RdTagStat: waits for the block
	il	$11,128
	ori	$12,$3,0
add:	lqd	$13,0($12)
	ai	$13,$13,1
	stqd	$13,0($12)
	ai	$12,$12,16
	ai	$11,$11,-1
	brnz	$11,add
	wrch	$ch21,$9	# MFC_Cmd
	wrch	$ch23,$7	# MFC_WrTagUpdate
	rdch	$10,$ch24	# MFC_RdTagStat: waits until it is back
	br	round
